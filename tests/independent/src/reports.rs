//! Link reports (document 02, #108): one report read, which of two stands, and the network of a set of them.

use crate::table::{Network, Refusal, plain};
use crate::text::into_lists;
use std::collections::{BTreeMap, BTreeSet};

/// What one relay says it sees.
#[derive(Clone, Debug, PartialEq, Eq)]
pub struct LinkReport {
    pub relay: u16,
    pub serial: u32,
    pub sees: Vec<u16>,
}

impl LinkReport {
    /// Its line.
    pub fn text(&self) -> String {
        let sees: String = self.sees.iter().map(|relay| format!(" {relay}")).collect();
        format!("(report {} {} (sees{sees}))\n", self.relay, self.serial)
    }
}

/// A number of so many digits at most, with no zero in front except in `0` itself.
fn number(word: &str, most: usize) -> Option<u64> {
    let digits = (1..=most).contains(&word.len()) && word.bytes().all(|byte| byte.is_ascii_digit());
    if digits && (word == "0" || !word.starts_with('0')) { word.parse().ok() } else { None }
}

/// A relay number up to 999.
fn relay(word: &str) -> Option<u16> {
    number(word, 4).filter(|&relay| relay <= 999).map(|relay| relay as u16)
}

/// The report that a line is, with its line end; none where it is out of form, its serial is past its range, it names a relay over 999
/// or its own among those seen, or those do not rise.
fn report(line: &[u8]) -> Option<LinkReport> {
    let line = str::from_utf8(line).ok()?;
    let (front, seen) = line.strip_prefix("(report ")?.strip_suffix("))\n")?.split_once(" (sees")?;
    let (one, other) = front.split_once(' ')?;
    let (relay_number, serial) = (relay(one)?, u32::try_from(number(other, 10)?).ok()?);
    let mut words = seen.split(' ');
    words.next().filter(|word| word.is_empty())?;
    let sees: Vec<u16> = words.map(relay).collect::<Option<_>>()?;
    let rising = sees.windows(2).all(|two| two[0] < two[1]);
    (rising && !sees.contains(&relay_number)).then_some(LinkReport { relay: relay_number, serial, sees })
}

/// The reports of a text that has nothing but report lines, in the order of the lines; refusal 19 otherwise.
fn reports_of(text: &[u8]) -> Result<Vec<LinkReport>, Refusal> {
    let lines = text.split_inclusive(|&byte| byte == b'\n');
    lines.map(report).collect::<Option<_>>().map_or(plain(19), Ok)
}

/// The report of a text that is one report line, and nothing after it.
pub fn read_one(text: &[u8]) -> Result<LinkReport, Refusal> {
    let mut reports = reports_of(text)?;
    if reports.len() == 1 { Ok(reports.remove(0)) } else { plain(19) }
}

/// Which of two texts.
#[derive(Clone, Copy, Debug, PartialEq, Eq)]
pub enum Which {
    First,
    Second,
}

/// Whether a serial is 1 to 2,147,483,647 ahead of another, wrapped at 32 bits.
fn ahead(serial: u32, other: u32) -> bool {
    let wrapped = (i64::from(serial) - i64::from(other)).rem_euclid(1 << 32);
    (1..=2_147_483_647).contains(&wrapped)
}

/// Which of two reports of one relay stands.
pub fn stands(first: &[u8], second: &[u8]) -> Result<Which, Refusal> {
    let (one, other) = (read_one(first)?, read_one(second)?);
    if one.relay != other.relay {
        return plain(20);
    }
    if ahead(other.serial, one.serial) {
        return Ok(Which::Second);
    }
    if ahead(one.serial, other.serial) || (one.serial == other.serial && first == second) {
        return Ok(Which::First);
    }
    plain(21)
}

/// The network of a set of standing reports, with room for so many links and states.
pub fn network(n: u16, text: &[u8], entries: usize, relays: usize) -> Result<Network, Refusal> {
    if n == 0 || n > 1000 {
        return plain(3);
    }
    let mut seen = BTreeMap::new();
    let mut twice = false;
    for LinkReport { relay, sees, .. } in reports_of(text)? {
        twice |= seen.insert(relay, BTreeSet::from_iter(sees)).is_some();
    }
    if twice {
        return plain(20);
    }
    if seen.iter().any(|(&relay, sees)| relay >= n || sees.iter().any(|&other| other >= n)) {
        return plain(5);
    }
    let mut links = vec![];
    for (&low, sees) in &seen {
        let back = |high: &&u16| **high > low && seen.get(high).is_some_and(|sees| sees.contains(&low));
        links.extend(sees.iter().filter(back).map(|&high| (low, high)));
    }
    links.sort();
    if links.len() > 3000 {
        return plain(4);
    }
    if entries < links.len() || relays < usize::from(n) {
        return plain(8);
    }
    let (lows, highs) = links.into_iter().unzip();
    let states = (0..n).map(|relay| u16::from(seen.contains_key(&relay))).collect();
    Ok(Network { n, lows, highs, states })
}

/// A set into lists: n and m.
pub fn reports(n: u16, text: &[u8], lows: &mut [u16], highs: &mut [u16], states: &mut [u16]) -> Result<(u16, u16), Refusal> {
    into_lists(|text, entries, relays| network(n, text, entries, relays), text, lows, highs, states)
}
