//! How an input is answered, coarsely: the fuzzer keeps what is answered in a new manner. What the two versions agree on is taken
//! from the second one, so the manners stand for the ways through the reader, the refusals and the sweep.

use crate::dimacs::network;
use crate::forests::{earlier, ordering, places};
use crate::reports::{self, read_one, stands};
use crate::sweep::{Wish, sweep};
use crate::table::{Network, Refusal, check, known};
use crate::text::form;
use crate::verify::{Fault, verify};
use std::cell::RefCell;

/// A manner of answering: an input's of the planner, a refused table's, a sweep's, a sheet's that is read back, a drawing's, a set's of
/// reports or that of two reports.
#[derive(Clone, Debug, PartialEq, Eq, Hash)]
pub enum Manner {
    /// The number printed, 0 for a sheet, the line that it is about by its shape, what stands there or k, and two sizes.
    Printed(u32, Vec<u8>, u8, [u32; 2]),
    /// The number, and the sizes of its place, of the table and of the state list.
    Table(u32, [u32; 3]),
    /// k, the sizes of the network, of its relays in service and its highest forest, how many ends one exchange replaced at most, and the sizes of how many
    /// ends were replaced and appended in all.
    Sweep(u16, [u32; 4], u32, [u32; 2]),
    /// The number, or 0 and the faults; for 14 the ends of the line up to the byte by their shape, and what stands there.
    Sheet(u32, Vec<Fault>, [Vec<u8>; 2], u8),
    /// The number, the line that it is about by its shape, what stands there, and the sizes of how many lines of each letter there are
    /// before it, or of the network and its comments.
    Drawing(u32, Vec<u8>, u8, [u32; 3]),
    /// The number; for 19 the end of the first line that is no report, up to where it departs from the form, by its shape, and what
    /// stands there; and the sizes of n, lines and links.
    Set(u32, Vec<u8>, u8, [u32; 3]),
    /// 0 or 1 for the one that stands, or the number; for 19 the same of the one that is no report; and the sizes of the serials.
    Pair(u32, Vec<u8>, u8, [u32; 2]),
}

impl Manner {
    /// The class among its like: the number, or how many ends one exchange replaced at most, or the first fault, from 100 on.
    pub fn class(&self) -> u32 {
        match self {
            Manner::Sheet(0, faults, ..) => faults.first().map_or(0, |fault| 100 + *fault as u32),
            Manner::Sheet(class, ..) => *class,
            Manner::Printed(class, ..) | Manner::Table(class, _) | Manner::Sweep(_, _, class, _) => *class,
            Manner::Drawing(class, ..) | Manner::Set(class, ..) | Manner::Pair(class, ..) => *class,
        }
    }
}

/// Numbers of one length in base two have one size.
fn size(number: usize) -> u32 {
    usize::BITS - number.leading_zeros()
}

/// A line with all digits alike, but for a 0 that a number begins with.
fn shape(line: &[u8]) -> Vec<u8> {
    let starts = |at: usize| at == 0 || !line[at - 1].is_ascii_digit();
    let alike = |at: usize| if line[at].is_ascii_digit() && !(line[at] == b'0' && starts(at)) { b'9' } else { line[at] };
    (0..line.len().min(40)).map(alike).collect()
}

/// The kind of the byte at a place.
fn found(input: &[u8], place: usize) -> u8 {
    match input.get(place) {
        None => b'$',
        Some(byte) if byte.is_ascii_lowercase() => b'a',
        Some(byte) if b"0 ()\n".contains(byte) => *byte,
        Some(byte) if byte.is_ascii_digit() => b'9',
        Some(byte) if byte.is_ascii() => b'!',
        Some(_) => b'~',
    }
}

/// Where the line begins that has a byte.
fn line_start(text: &[u8], at: usize) -> usize {
    text[..at].iter().rposition(|&byte| byte == b'\n').map_or(0, |newline| newline + 1)
}

/// The lines of a text with their ends.
fn lines(text: &[u8]) -> Vec<&[u8]> {
    text.split_inclusive(|&byte| byte == b'\n').collect()
}

/// Which of the lines is the first out line that is not above the one before; the last line where all are.
fn falling(lines: &[&[u8]]) -> usize {
    let out = |line: usize| form(lines[line], 0, "(out #)\n").ok().map(|(relay, _)| relay[0]);
    let falls = |line: &usize| out(*line).is_some() && out(*line) <= out(line - 1);
    (1..lines.len()).find(falls).unwrap_or(lines.len() - 1)
}

/// The manner of an input for which the planner printed this: the line up to the byte for 1 and 2, the link's line for 5 to 7, the
/// out line for 16, otherwise the header line; for a sheet k and the sizes of its longest route and of all of them.
pub fn printed(input: &[u8], sheet: &str) -> Manner {
    let words: Vec<usize> = sheet.split(|c: char| !c.is_ascii_digit()).filter_map(|word| word.parse().ok()).collect();
    let all = lines(input);
    if !sheet.starts_with("(refused") {
        let lengths = sheet.lines().filter(|line| line.starts_with("(route")).map(|line| line.split(' ').count());
        let (longest, whole) = lengths.fold((0, 0), |(longest, whole), length| (longest.max(length), whole + length));
        return Manner::Printed(0, vec![], words[2] as u8, [size(longest), size(whole)]);
    }
    let (number, place) = (words[0] as u32, words[1]);
    match number {
        1 | 2 => {
            let at = if number == 1 { place } else { all[0].len() + place };
            let start = line_start(input, at);
            let before = input[..start].iter().filter(|&&byte| byte == b'\n').count();
            Manner::Printed(number, shape(&input[start..at]), found(input, at), [size(before).min(3), 0])
        }
        5..=7 => Manner::Printed(number, shape(all[place + 2]), 0, [size(place), 0]),
        16 => Manner::Printed(number, shape(all[falling(&all)]), 0, [size(falling(&all)), size(all.len())]),
        _ => Manner::Printed(number, shape(all[1]), 0, [0, size(all.len())]),
    }
}

/// The manner of a table that the check refuses.
pub fn refused(net: &Network) -> Option<Manner> {
    let refusal = check(net).err()?;
    Some(Manner::Table(refusal.number, [refusal.place, net.lows.len(), net.states.len()].map(size)))
}

/// The manner of a sheet that is read back with a network.
pub fn read_back(net: &Network, text: &[u8]) -> Manner {
    match verify(net, text) {
        Ok(faults) => Manner::Sheet(0, faults, [vec![], vec![]], 0),
        Err(Refusal { number: 14, place }) => {
            let line = &text[line_start(text, place)..place];
            let (front, rest) = line.split_at(line.len().min(8));
            Manner::Sheet(14, vec![], [front, &rest[rest.len().saturating_sub(6)..]].map(shape), found(text, place))
        }
        Err(refusal) => Manner::Sheet(refusal.number, vec![], [vec![], vec![]], 0),
    }
}

/// The manner of a drawing, with room for any: the line up to the byte for 18, of a comment only how it begins, the link's line for 5 to
/// 7, otherwise the `p` line.
pub fn drawn(text: &[u8]) -> Manner {
    let all = lines(text);
    let of = |letter: u8, all: &[&[u8]]| all.iter().filter(|line| line[0] == letter).count();
    let line =
        |letter: u8, place: usize| all.iter().filter(|line| line[0] == letter).nth(place).map_or(vec![], |line| shape(line));
    match network(text, 3000, 1000) {
        Ok(net) => Manner::Drawing(0, vec![], 0, [usize::from(net.n), net.lows.len(), of(b'c', &all)].map(size)),
        Err(Refusal { number: 18, place }) => {
            let start = line_start(text, place);
            let most = if text[start..].starts_with(b"c ") { 2 } else { 40 };
            let before = lines(&text[..start]);
            let met = [b'c', b'p', b'e'].map(|letter| size(of(letter, &before)).min(3));
            Manner::Drawing(18, shape(&text[start..place.min(start + most)]), found(text, place), met)
        }
        Err(Refusal { number: number @ 5..=7, place }) => Manner::Drawing(number, line(b'e', place), 0, [size(place), 0, 0]),
        Err(Refusal { number, .. }) => Manner::Drawing(number, line(b'p', 0), 0, [0, 0, size(all.len())]),
    }
}

/// Where a line departs from the form of a report, or where that ends: the bytes before it by their shape, and what stands there.
fn departure(line: &[u8]) -> (Vec<u8>, u8) {
    let digits = |at: usize| at + line[at..].iter().take_while(|byte| byte.is_ascii_digit()).count();
    let numbers = |mut at: usize| {
        while let Ok((_, next)) = form(line, at, " #") {
            at = next;
        }
        at
    };
    let serial = form(line, 0, "(report # ").map(|read| digits(read.1));
    let sees = serial.and_then(|at| form(line, at, " (sees")).map(|read| numbers(read.1));
    let at = sees.and_then(|at| form(line, at, "))\n")).map_or_else(|at| at, |read| read.1);
    (shape(&line[at.saturating_sub(12)..at]), found(line, at))
}

/// The manner of a set of reports, with room for any.
pub fn sent(n: u16, text: &[u8]) -> Manner {
    let all = lines(text);
    let sizes = |links: usize| [usize::from(n), all.len(), links].map(size);
    match reports::network(n, text, 3000, 1000) {
        Ok(net) => Manner::Set(0, vec![], 0, sizes(net.lows.len())),
        Err(Refusal { number: 19, .. }) => {
            let bad = all.iter().position(|line| read_one(line).is_err()).expect("a line that is no report");
            let (shape, byte) = departure(all[bad]);
            Manner::Set(19, shape, byte, [0, size(bad).min(3), 0])
        }
        Err(refusal) => Manner::Set(refusal.number, vec![], 0, sizes(0)),
    }
}

/// The manner of two reports.
pub fn paired(first: &[u8], second: &[u8]) -> Manner {
    let code = stands(first, second).map_or_else(|refusal| refusal.number, |which| which as u32);
    let bad = |text: &[u8], sizes: [u32; 2]| {
        let (shape, byte) = departure(text);
        Manner::Pair(code, shape, byte, sizes)
    };
    match (read_one(first), read_one(second)) {
        (Ok(one), Ok(other)) => Manner::Pair(code, vec![], 0, [one.serial, other.serial].map(|serial| size(serial as usize))),
        (Err(_), _) => bad(first, [0, 1]),
        (_, Err(_)) => bad(second, [1, 0]),
    }
}

/// What the sweep looks up in an accepted network.
pub struct Lefts {
    places: Vec<u16>,
    earlier: Vec<Vec<(u16, usize)>>,
    sizes: [u32; 4],
}

impl Lefts {
    pub fn new(net: &Network) -> Lefts {
        let order = ordering(net);
        let places = places(net.n, &order);
        let earlier = earlier(net, &places);
        let highest = earlier.iter().map(Vec::len).max().unwrap_or(0);
        let sizes = [places.len(), net.lows.len(), order.len(), highest].map(size);
        Lefts { places, earlier, sizes }
    }

    /// The later and the earlier place of a wish that can be met.
    fn ends(&self, wish: Wish) -> Option<(u16, u16)> {
        let (p, q) = (*self.places.get(usize::from(wish.from))?, *self.places.get(usize::from(wish.to))?);
        let (s, t) = (p.max(q), p.min(q));
        let tree = t > 0 && (t + 1..=s).all(|v| self.earlier[usize::from(v)].len() >= usize::from(wish.k));
        if s != t && tree && known(wish.k).is_ok() { Some((s, t)) } else { None }
    }

    /// The manner in which the sweep meets a wish, if it can, from the order in which it looks left up: for an end that is appended
    /// at the place under treatment, which only falls, for an end that is replaced at a later place, and within one exchange in
    /// rising i.
    pub fn manner(&self, wish: Wish) -> Option<Manner> {
        let (s, t) = self.ends(wish)?;
        let asked = RefCell::new(vec![]);
        sweep(usize::from(wish.k), s, t, &|i, v| {
            asked.borrow_mut().push((i, v));
            self.earlier[usize::from(v)].get(i - 1).map(|&(place, _)| place)
        });
        let asked = asked.into_inner();
        let (mut lowest, mut last, mut row, mut longest, mut replaced) = (s, 0, 0, 0, 0);
        for &(i, v) in &asked {
            row = if v > lowest { 1 + if i > last { row } else { 0 } } else { 0 };
            replaced += usize::from(v > lowest);
            longest = longest.max(row);
            (lowest, last) = (lowest.min(v), i);
        }
        Some(Manner::Sweep(wish.k, self.sizes, longest, [size(replaced), size(asked.len() - replaced)]))
    }
}
