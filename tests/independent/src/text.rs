//! The network's text: Read and Write.

use crate::table::{Network, Refusal, Seen, check, plain, refuse, room};

/// Reads one form from `start`: `#` in the pattern stands for a number, every other byte for itself.
/// Gives the numbers and the next offset, or the offset of the first byte that departs.
pub fn form(text: &[u8], start: usize, pattern: &str) -> Result<(Vec<u16>, usize), usize> {
    let mut numbers = Vec::new();
    let mut at = start;
    let digit = |at: usize| text.get(at).filter(|byte| byte.is_ascii_digit()).map(|byte| u16::from(byte - b'0'));
    for due in pattern.bytes() {
        if due == b'#' {
            let mut number = digit(at).ok_or(at)?;
            at += 1;
            let mut more = if number == 0 { 0 } else { 3 };
            while let Some(value) = digit(at).filter(|_| more > 0) {
                number = 10 * number + value;
                at += 1;
                more -= 1;
            }
            numbers.push(number);
        } else if text.get(at) == Some(&due) {
            at += 1;
        } else {
            return Err(at);
        }
    }
    Ok((numbers, at))
}

/// The first line.
pub const HEADER: &str = "(net (relays #) (links #))\n";

/// Reads the out lines and the end: the relays withdrawn. An out line and the end are due at once: where a text follows neither of
/// them, it departs at the later of the two offsets.
fn outs(text: &[u8], start: usize, n: u16) -> Result<Vec<u16>, Refusal> {
    let (mut outs, mut at) = (vec![], start);
    loop {
        match (form(text, at, "(out #)\n"), form(text, at, "(end)\n")) {
            (Ok((out, next)), _) => {
                if out[0] >= n || outs.last().is_some_and(|&before| out[0] <= before) {
                    return plain(16);
                }
                outs.push(out[0]);
                at = next;
            }
            (_, Ok((_, end))) => return if end < text.len() { refuse(2, end) } else { Ok(outs) },
            (Err(of_out), Err(of_end)) => return refuse(2, of_out.max(of_end)),
        }
    }
}

/// The refusals behind the line that says n and m, with room for so many links and states.
pub fn counted(n: u16, m: u16, entries: usize, relays: usize) -> Result<(), Refusal> {
    if n == 0 || n > 1000 {
        return plain(3);
    }
    if m > 3000 {
        return plain(4);
    }
    if entries < usize::from(m) || relays < usize::from(n) {
        return plain(8);
    }
    Ok(())
}

/// The network of a text, with room for so many links and states.
fn network(text: &[u8], entries: usize, relays: usize) -> Result<Network, Refusal> {
    let departs = |place| Refusal { number: 2, place };
    let (header, mut at) = form(text, 0, HEADER).map_err(departs)?;
    let (n, m) = (header[0], header[1]);
    counted(n, m, entries, relays)?;
    let mut seen = Seen::new(n);
    let mut net = Network::serving(n, vec![], vec![]);
    for index in 0..usize::from(m) {
        let (link, next) = form(text, at, "(link # #)\n").map_err(departs)?;
        seen.take(index, link[0], link[1])?;
        net.lows.push(link[0]);
        net.highs.push(link[1]);
        at = next;
    }
    for relay in outs(text, at, n)? {
        net.states[usize::from(relay)] = 0;
    }
    Ok(net)
}

/// The lists after a reading, and the answer: n and m. The reading gives the network of a text, or why it is refused, with room for so
/// many links and states.
pub fn into_lists(
    reading: impl FnOnce(&[u8], usize, usize) -> Result<Network, Refusal>,
    text: &[u8],
    lows: &mut [u16],
    highs: &mut [u16],
    states: &mut [u16],
) -> Result<(u16, u16), Refusal> {
    lows.fill(0);
    highs.fill(0);
    states.fill(0);
    let net = reading(text, lows.len().min(highs.len()), states.len())?;
    lows[..net.lows.len()].copy_from_slice(&net.lows);
    highs[..net.highs.len()].copy_from_slice(&net.highs);
    states[..net.states.len()].copy_from_slice(&net.states);
    Ok((net.n, net.lows.len() as u16))
}

/// Read: n and m.
pub fn read(text: &[u8], lows: &mut [u16], highs: &mut [u16], states: &mut [u16]) -> Result<(u16, u16), Refusal> {
    into_lists(network, text, lows, highs, states)
}

/// The network that a program reads, into lists that are long enough for any.
pub fn read_whole(text: &[u8]) -> Result<Network, Refusal> {
    let (mut lows, mut highs, mut states) = (vec![0; 3000], vec![0; 3000], vec![0; 1000]);
    let (n, m) = read(text, &mut lows, &mut highs, &mut states)?;
    lows.truncate(usize::from(m));
    highs.truncate(usize::from(m));
    states.truncate(usize::from(n));
    Ok(Network { n, lows, highs, states })
}

/// The text of a table, accepted or not.
pub fn text(net: &Network) -> String {
    let mut text = format!("(net (relays {}) (links {}))\n", net.n, net.lows.len());
    for (a, b) in net.links() {
        text += &format!("(link {a} {b})\n");
    }
    for (relay, _) in net.states.iter().enumerate().filter(|state| *state.1 == 0) {
        text += &format!("(out {relay})\n");
    }
    text + "(end)\n"
}

/// Write: the length.
pub fn write(net: &Network, buffer: &mut [u8]) -> Result<usize, Refusal> {
    check(net)?;
    let text = text(net);
    room(buffer, text.len())?;
    buffer[..text.len()].copy_from_slice(text.as_bytes());
    Ok(text.len())
}
