//! Read, Write and the planner by the methods of an ordinary program that is to be fast.

use crate::sweep::Wish;
use crate::swift::{check, cut, link, no_pairs, routes_with_links};
use crate::table::{Network, Refusal, plain, refuse, room};
use crate::text::counted;

#[inline]
pub fn number(text: &[u8], at: &mut usize) -> Result<u16, Refusal> {
    let digit = |at: usize| text.get(at).map_or(10, |byte| byte.wrapping_sub(b'0'));
    let mut value = u16::from(digit(*at));
    if value > 9 {
        return refuse(2, *at);
    }
    *at += 1;
    let stop = *at + if value == 0 { 0 } else { 3 };
    while *at < stop && digit(*at) <= 9 {
        value = 10 * value + u16::from(digit(*at));
        *at += 1;
    }
    Ok(value)
}

#[inline]
pub fn word(text: &[u8], at: &mut usize, word: &[u8]) -> Result<(), Refusal> {
    for &byte in word {
        if text.get(*at) != Some(&byte) {
            return refuse(2, *at);
        }
        *at += 1;
    }
    Ok(())
}

/// The out lines and the end.
fn read_outs(text: &[u8], at: &mut usize, states: &mut [u16]) -> Result<(), Refusal> {
    let mut least = 0;
    while text.get(*at + 1) == Some(&b'o') {
        word(text, at, b"(out ")?;
        let relay = number(text, at)?;
        word(text, at, b")\n")?;
        if usize::from(relay) >= states.len() || relay < least {
            return plain(16);
        }
        states[usize::from(relay)] = 0;
        least = relay + 1;
    }
    word(text, at, b"(end)\n")
}

fn read_lines(text: &[u8], lows: &mut [u16], highs: &mut [u16], states: &mut [u16]) -> Result<(u16, u16), Refusal> {
    let mut at = 0;
    word(text, &mut at, b"(net (relays ")?;
    let n = number(text, &mut at)?;
    word(text, &mut at, b") (links ")?;
    let m = number(text, &mut at)?;
    word(text, &mut at, b"))\n")?;
    counted(n, m, lows.len().min(highs.len()), states.len())?;
    let mut seen = no_pairs(n);
    for index in 0..usize::from(m) {
        word(text, &mut at, b"(link ")?;
        let a = number(text, &mut at)?;
        word(text, &mut at, b" ")?;
        let b = number(text, &mut at)?;
        word(text, &mut at, b")\n")?;
        link(n, &mut seen, index, a, b)?;
        lows[index] = a;
        highs[index] = b;
    }
    let states = &mut states[..usize::from(n)];
    states.fill(1);
    read_outs(text, &mut at, states)?;
    if at < text.len() { refuse(2, at) } else { Ok((n, m)) }
}

/// The zeros behind what was read into the lists; after a refusal they are all zeros.
pub fn cleared(
    answer: Result<(u16, u16), Refusal>,
    lows: &mut [u16],
    highs: &mut [u16],
    states: &mut [u16],
) -> Result<(u16, u16), Refusal> {
    let (n, m) = answer.map_or((0, 0), |(n, m)| (usize::from(n), usize::from(m)));
    lows[m..].fill(0);
    highs[m..].fill(0);
    states[n..].fill(0);
    answer
}

/// Read.
pub fn read(text: &[u8], lows: &mut [u16], highs: &mut [u16], states: &mut [u16]) -> Result<(u16, u16), Refusal> {
    let answer = read_lines(text, lows, highs, states);
    cleared(answer, lows, highs, states)
}

fn put_number(buffer: &mut [u8], at: &mut usize, value: u16) {
    for unit in [1000, 100, 10, 1] {
        if value >= unit || unit == 1 {
            buffer[*at] = b'0' + (value / unit % 10) as u8;
            *at += 1;
        }
    }
}

fn put(buffer: &mut [u8], at: &mut usize, word: &[u8]) {
    buffer[*at..*at + word.len()].copy_from_slice(word);
    *at += word.len();
}

/// A line of numbers behind a word.
fn put_line(buffer: &mut [u8], at: &mut usize, word: &[u8], numbers: &[u16]) {
    put(buffer, at, word);
    for &number in numbers {
        put(buffer, at, b" ");
        put_number(buffer, at, number);
    }
    put(buffer, at, b")\n");
}

fn digits(value: u16) -> usize {
    1 + usize::from(value >= 10) + usize::from(value >= 100) + usize::from(value >= 1000)
}

/// Write.
pub fn write(net: &Network, buffer: &mut [u8]) -> Result<usize, Refusal> {
    check(net)?;
    let (n, m) = (net.n, net.lows.len() as u16);
    let links: usize = net.links().map(|(a, b)| 9 + digits(a) + digits(b)).sum();
    let outs = || (0..n).zip(&net.states).filter(|two| *two.1 == 0).map(|two| two.0);
    let length = 25 + digits(n) + digits(m) + links + outs().map(|relay| 7 + digits(relay)).sum::<usize>() + 6;
    room(buffer, length)?;
    let mut at = 0;
    put(buffer, &mut at, b"(net (relays ");
    put_number(buffer, &mut at, n);
    put(buffer, &mut at, b") (links ");
    put_number(buffer, &mut at, m);
    put(buffer, &mut at, b"))\n");
    for (a, b) in net.links() {
        put(buffer, &mut at, b"(link ");
        put_number(buffer, &mut at, a);
        put(buffer, &mut at, b" ");
        put_number(buffer, &mut at, b);
        put(buffer, &mut at, b")\n");
    }
    for relay in outs() {
        put_line(buffer, &mut at, b"(out", &[relay]);
    }
    put(buffer, &mut at, b"(end)\n");
    Ok(at)
}

fn sheet(input: &[u8]) -> Result<Vec<u8>, Refusal> {
    let wish = |at: &mut usize| -> Result<Wish, Refusal> {
        word(input, at, b"(want ")?;
        let from = number(input, at)?;
        word(input, at, b" ")?;
        let to = number(input, at)?;
        word(input, at, b" ")?;
        let k = number(input, at)?;
        word(input, at, b")\n")?;
        Ok(Wish { k, from, to })
    };
    let mut at = 0;
    let wish = wish(&mut at).map_err(|refusal| Refusal { number: 1, ..refusal })?;
    let (mut lows, mut highs, mut states) = (vec![0; 3000], vec![0; 3000], vec![0; 1000]);
    let (n, m) = read(&input[at..], &mut lows, &mut highs, &mut states)?;
    lows.truncate(usize::from(m));
    highs.truncate(usize::from(m));
    states.truncate(usize::from(n));
    let net = Network { n, lows, highs, states };
    let kept = cut(&net, wish.k, &mut [0; 3000])?;
    if wish.from >= n || wish.to >= n {
        return plain(10);
    }
    if wish.from == wish.to {
        return plain(11);
    }
    if !net.serves(wish.from) || !net.serves(wish.to) {
        return plain(17);
    }
    let Some(routes) = routes_with_links(&net, wish) else { return plain(13) };
    let mut sheet = vec![0; 9935];
    let mut at = 0;
    for (front, value) in [(&b"(sheet (from "[..], wish.from), (b") (to ", wish.to), (b") (k ", wish.k)] {
        put(&mut sheet, &mut at, front);
        put_number(&mut sheet, &mut at, value);
    }
    put(&mut sheet, &mut at, b"))\n");
    for (route, over) in routes {
        put_line(&mut sheet, &mut at, b"(route", &route);
        put_line(&mut sheet, &mut at, b"(over", &over);
    }
    put(&mut sheet, &mut at, b"(kept ");
    put_number(&mut sheet, &mut at, kept);
    put(&mut sheet, &mut at, b")\n(end)\n");
    sheet.truncate(at);
    Ok(sheet)
}

/// What the planner prints for an input.
pub fn plan(input: &[u8]) -> Vec<u8> {
    sheet(input).unwrap_or_else(|refusal| refusal.line().into_bytes())
}
