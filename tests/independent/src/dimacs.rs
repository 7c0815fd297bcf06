//! The import of drawings in the DIMACS edge format (document 02, #106).

use crate::table::{Network, Refusal, refuse};
use crate::text::{counted, form, into_lists};
use std::collections::HashSet;

/// The line that says how many relays and links there are.
pub const PROBLEM: &str = "p edge # #\n";

/// The line of a link.
const EDGE: &str = "e # #\n";

/// Where the comment line that begins here ends: `c` alone, or `c`, a space and any or no bytes other than 10. Otherwise where it
/// departs from both.
fn comment(text: &[u8], start: usize) -> Result<usize, usize> {
    match (form(text, start, "c\n"), form(text, start, "c ")) {
        (Ok((_, end)), _) => Ok(end),
        (_, Ok((_, at))) => match text[at..].iter().position(|&byte| byte == b'\n') {
            Some(length) => Ok(at + length + 1),
            None => Err(text.len()),
        },
        (Err(alone), Err(spaced)) => Err(alone.max(spaced)),
    }
}

/// Reads comment lines, and then a line of this form: its numbers and where the next line begins. A comment line and that line are due
/// at once: where a text follows neither of them, it departs at the later of the two offsets.
pub fn line(text: &[u8], start: usize, pattern: &str) -> Result<(Vec<u16>, usize), Refusal> {
    let mut at = start;
    loop {
        match (form(text, at, pattern), comment(text, at)) {
            (Ok(read), _) => return Ok(read),
            (_, Ok(next)) => at = next,
            (Err(of_line), Err(of_comment)) => return refuse(18, of_line.max(of_comment)),
        }
    }
}

/// The network of a drawing, with room for so many links and states.
pub fn network(text: &[u8], entries: usize, relays: usize) -> Result<Network, Refusal> {
    let (problem, mut at) = line(text, 0, PROBLEM)?;
    let (n, m) = (problem[0], problem[1]);
    counted(n, m, entries, relays)?;
    let mut net = Network::serving(n, vec![], vec![]);
    let mut pairs = HashSet::new();
    for index in 0..usize::from(m) {
        let (ends, next) = line(text, at, EDGE)?;
        let (u, v) = (ends[0], ends[1]);
        if !(1..=n).contains(&u) || !(1..=n).contains(&v) {
            return refuse(5, index);
        }
        if u == v {
            return refuse(6, index);
        }
        if pairs.contains(&(u, v)) || pairs.contains(&(v, u)) {
            return refuse(7, index);
        }
        pairs.insert((u, v));
        net.lows.push(u.min(v) - 1);
        net.highs.push(u.max(v) - 1);
        at = next;
    }
    while at < text.len() {
        at = comment(text, at).or_else(|place| refuse(18, place))?;
    }
    Ok(net)
}

/// The import: n and m.
pub fn import(text: &[u8], lows: &mut [u16], highs: &mut [u16], states: &mut [u16]) -> Result<(u16, u16), Refusal> {
    into_lists(network, text, lows, highs, states)
}
