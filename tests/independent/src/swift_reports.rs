//! A set of link reports by the methods of an ordinary program that is to be fast: a vector of those seen for each relay, and binary
//! search in that of the other end.

use crate::swift_text::{cleared, number, word};
use crate::table::{Refusal, plain};

/// A serial, in its range or past it.
#[inline]
fn serial(text: &[u8], at: &mut usize) -> Result<u64, Refusal> {
    let digits = text[*at..].iter().take(11).take_while(|byte| byte.is_ascii_digit()).count();
    let (front, end) = (*at, *at + digits);
    if digits == 0 || digits > 10 || (digits > 1 && text[front] == b'0') {
        return plain(19);
    }
    *at = end;
    Ok(text[front..end].iter().fold(0, |value, byte| 10 * value + u64::from(byte - b'0')))
}

/// A report line: its relay and those that it sees.
fn line(text: &[u8], at: &mut usize) -> Result<(u16, Vec<u16>), Refusal> {
    word(text, at, b"(report ")?;
    let relay = number(text, at)?;
    word(text, at, b" ")?;
    let serial = serial(text, at)?;
    word(text, at, b" (sees")?;
    if relay > 999 || serial > u64::from(u32::MAX) {
        return plain(19);
    }
    let (mut sees, mut least) = (vec![], 0);
    while text.get(*at) == Some(&b' ') {
        *at += 1;
        let other = number(text, at)?;
        if other < least || other > 999 || other == relay {
            return plain(19);
        }
        sees.push(other);
        least = other + 1;
    }
    word(text, at, b"))\n")?;
    Ok((relay, sees))
}

/// What each relay sees, if it reports.
type Seen = Vec<Option<Vec<u16>>>;

/// The lines of a set: whether a relay reports twice, and whether a number is not below n, go with them.
fn lines(n: u16, text: &[u8]) -> Result<(Seen, bool, bool), Refusal> {
    let mut seen = vec![None; 1000];
    let (mut twice, mut beyond, mut at) = (false, false, 0);
    while at < text.len() {
        let (relay, sees) = line(text, &mut at).or(plain(19))?;
        beyond |= relay.max(sees.last().copied().unwrap_or(0)) >= n;
        twice |= seen[usize::from(relay)].replace(sees).is_some();
    }
    Ok((seen, twice, beyond))
}

fn set(n: u16, text: &[u8], lows: &mut [u16], highs: &mut [u16], states: &mut [u16]) -> Result<(u16, u16), Refusal> {
    if n == 0 || n > 1000 {
        return plain(3);
    }
    let (seen, twice, beyond) = lines(n, text)?;
    if twice {
        return plain(20);
    }
    if beyond {
        return plain(5);
    }
    let (room, mut m) = (lows.len().min(highs.len()), 0);
    for (low, sees) in (0..n).zip(&seen) {
        let Some(sees) = sees else { continue };
        for &high in sees.iter().filter(|&&high| high > low) {
            if seen[usize::from(high)].as_ref().is_some_and(|sees| sees.binary_search(&low).is_ok()) {
                if m < room {
                    (lows[m], highs[m]) = (low, high);
                }
                m += 1;
            }
        }
    }
    if m > 3000 {
        return plain(4);
    }
    if room < m || states.len() < usize::from(n) {
        return plain(8);
    }
    states.iter_mut().zip(&seen).for_each(|(state, sees)| *state = u16::from(sees.is_some()));
    Ok((n, m as u16))
}

/// A set of link reports.
pub fn reports(n: u16, text: &[u8], lows: &mut [u16], highs: &mut [u16], states: &mut [u16]) -> Result<(u16, u16), Refusal> {
    let answer = set(n, text, lows, highs, states);
    cleared(answer, lows, highs, states)
}
