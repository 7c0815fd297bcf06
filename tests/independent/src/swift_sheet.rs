//! Sheets read back by the methods of an ordinary program that is to be fast: one list of all relays and one of all links, gone
//! through once with a mark for each relay met.

use crate::swift::{check, scan};
use crate::swift_text::{number, word};
use crate::table::{Network, Refusal, plain, refuse};

/// The numbers of a sheet: those of its head, all relays and all links, and behind each route how many there are of either by then.
struct Flat {
    head: [u16; 3],
    relays: Vec<u16>,
    links: Vec<u16>,
    behind: Vec<(usize, usize)>,
    kept: u16,
}

/// A line of numbers behind its word, at least so many.
fn line(text: &[u8], at: &mut usize, front: &[u8], least: usize, list: &mut Vec<u16>) -> Result<(), Refusal> {
    word(text, at, front)?;
    let start = list.len();
    while list.len() < start + least || text.get(*at) == Some(&b' ') {
        word(text, at, b" ")?;
        list.push(number(text, at)?);
    }
    word(text, at, b")\n")
}

fn read(text: &[u8]) -> Result<Flat, Refusal> {
    let (mut at, mut head) = (0, [0; 3]);
    for (value, front) in head.iter_mut().zip([&b"(sheet (from "[..], b") (to ", b") (k "]) {
        word(text, &mut at, front)?;
        *value = number(text, &mut at)?;
    }
    word(text, &mut at, b"))\n")?;
    let (mut relays, mut links, mut behind) = (Vec::with_capacity(1062), Vec::with_capacity(1030), Vec::with_capacity(32));
    while text.get(at + 1) == Some(&b'r') {
        line(text, &mut at, b"(route", 2, &mut relays)?;
        line(text, &mut at, b"(over", 1, &mut links)?;
        behind.push((relays.len(), links.len()));
    }
    word(text, &mut at, b"(kept ")?;
    let kept = number(text, &mut at)?;
    word(text, &mut at, b")\n(end)\n")?;
    if at < text.len() { refuse(2, at) } else { Ok(Flat { head, relays, links, behind, kept }) }
}

fn holds(net: &Network, sheet: &Flat) -> bool {
    let Network { n, lows, highs, .. } = net;
    let [from, to, k] = sheet.head;
    let mut met = [false; 1000];
    let (mut relay, mut link, mut direct) = (0, 0, false);
    if sheet.behind.len() != usize::from(k) || from >= *n || to >= *n || from == to {
        return false;
    }
    for &(relays, links) in &sheet.behind {
        let (route, over) = (&sheet.relays[relay..relays], &sheet.links[link..links]);
        let last = route.len() - 1;
        if route[0] != from || route[last] != to || over.len() != last || (last == 1 && direct) {
            return false;
        }
        direct |= last == 1;
        for (step, &link) in over.iter().enumerate() {
            let (a, b, link) = (route[step], route[step + 1], usize::from(link));
            if link >= lows.len() || lows[link] != a.min(b) || highs[link] != a.max(b) || !net.whole(link) {
                return false;
            }
            let inner = step + 1 < last;
            if inner && (b == from || b == to || std::mem::replace(&mut met[usize::from(b)], true)) {
                return false;
            }
        }
        (relay, link) = (relays, links);
    }
    let (mut relays, mut places, mut forests) = ([0; 1000], [0; 1000], [0; 3000]);
    scan(net, &mut relays, &mut places, &mut forests);
    forests[..lows.len()].iter().filter(|&&forest| forest.wrapping_sub(1) < k).count() == usize::from(sheet.kept)
}

/// A sheet read back: whether it holds.
pub fn verify(net: &Network, text: &[u8]) -> Result<bool, Refusal> {
    check(net)?;
    let sheet = read(text).map_err(|refusal| Refusal { number: 14, ..refusal })?;
    if sheet.head[2] == 0 || sheet.head[2] > 32 { plain(15) } else { Ok(holds(net, &sheet)) }
}
