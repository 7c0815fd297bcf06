//! Drawings in the DIMACS edge format (document 02, #106) that are spoilt in one way.

use crate::drawings::{Lines, beginning, edge, exchange, two};
use crate::random::Random;

/// Spoils a drawing that is accepted; nothing where it has not what it takes, such as a link.
pub type Spoil = fn(&mut Random, &mut Lines) -> Option<()>;

/// Departures from the form: lines too many, too few and of other kinds.
pub const LINES: [(&str, Spoil); 16] = [
    ("two p lines", |random, lines| {
        let again = lines[problem(lines)?].clone();
        put(random, lines, &again)
    }),
    ("two p lines, the second with other numbers", |random, lines| put(random, lines, b"p edge 1000 0\n")),
    ("no p line", |_, lines| {
        let at = problem(lines)?;
        without(lines, at)
    }),
    ("an e line missing", |random, lines| {
        let at = link(random, lines)?;
        without(lines, at)
    }),
    ("an e line too many", |_, lines| insert(lines, lines.len(), edge(1, 2))),
    ("an e line again at the end", |random, lines| {
        let again = lines[link(random, lines)?].clone();
        insert(lines, lines.len(), again)
    }),
    ("an e line in front of the p line", |random, lines| {
        let moved = lines.remove(link(random, lines)?);
        insert(lines, random.below(problem(lines)? + 1), moved)
    }),
    ("a blank line", |random, lines| put(random, lines, b"\n")),
    ("a line of spaces", |random, lines| put(random, lines, b" \n")),
    ("an n line", |random, lines| put(random, lines, b"n 1 1\n")),
    ("a line of another letter", |random, lines| {
        one_of(random, lines, b"a 1 2\nd 1\nb\nf 1 2\no 1\nq\nv 1 2\nx\n# drawn\n% drawn\n// drawn\n")
    }),
    ("a comment without its space", |random, lines| {
        one_of(random, lines, b"cx\ncc\nc\t\nc1 2\nc\0\nc\r\nc\xff\nc-\nc\x0b\nc!\nce 1 2\n")
    }),
    ("a capital C", |random, lines| put(random, lines, b"C drawn\n")),
    ("no line", |_, lines| all(lines, vec![])),
    ("comments alone", |_, lines| all(lines, vec![b"c drawn\n".into(), b"c\n".into()])),
    ("no line end at the end", |_, lines| lines.last_mut()?.pop().map(drop)),
];

/// Departures within a line.
pub const WORDS: [(&str, Spoil); 20] = [
    ("CRLF for line ends", |_, lines| all(lines, lines.iter().map(|line| [&line[..line.len() - 1], b"\r\n"].concat()).collect())),
    ("a carriage return", |random, lines| behind(random, lines, b"\r")),
    ("a space at the end", |random, lines| behind(random, lines, b" ")),
    ("a comment within a line", |random, lines| behind(random, lines, b" c drawn")),
    ("a number too many", |random, lines| behind(random, lines, b" 1")),
    ("no second number", |random, lines| tail(random, lines, |words| drop(words.pop()))),
    ("a space for the second number", |random, lines| tail(random, lines, |words| words[1].clear())),
    ("no number", |random, lines| tail(random, lines, Vec::clear)),
    ("a space in front", |random, lines| within(random, lines, |_, _| 0, b" ")),
    ("two spaces", |random, lines| within(random, lines, space, b" ")),
    ("a tab for a space", |random, lines| over(random, lines, space, b"\t")),
    ("a zero in front", |random, lines| within(random, lines, |random, line| space(random, line).max(first(line)) + 1, b"0")),
    ("five digits", |random, lines| {
        let high = random.within(10_000, 99_999).to_string();
        let at = random.below(2);
        tail(random, lines, |words| words[at] = high)
    }),
    ("a sign, a point or another base", |random, lines| {
        let (at, word) = (random.below(2), *random.pick(&["-1", "+1", "1.0", "0x1", "1e1", "00", "1,"]));
        tail(random, lines, |words| words[at] = word.into())
    }),
    ("a byte beside the digits", |random, lines| {
        let byte = *random.pick(b"/:");
        over(random, lines, |random, line| space(random, line).max(first(line)) + 1, &[byte])
    }),
    ("p col", |_, lines| word(lines, "col")),
    ("another word for edge", |random, lines| {
        let words = ["edges", "Edge", "EDGE", "edg", "edeg", "sp", "max", "asn", "", "e", "edge edge", "edgf", "fdge"];
        word(lines, words[random.below(words.len())])
    }),
    ("a capital P or E", |random, lines| {
        let at = formed(random, lines)?;
        let capital = lines[at][0].to_ascii_uppercase();
        set(lines, at, [&[capital], &lines[at][1..]].concat())
    }),
    ("the letter alone", |random, lines| {
        let at = formed(random, lines)?;
        set(lines, at, vec![lines[at][0], b'\n'])
    }),
    ("a byte 0 or 255", |random, lines| {
        let byte = *random.pick(&[0, 255]);
        over(random, lines, |random, line| random.below(line.len()), &[byte])
    }),
];

/// What is refused for another reason, with its number; at times a departure comes later, or is met before it.
pub const NUMBERS: [(&str, u32, Spoil); 18] = [
    ("no relay", 3, |_, lines| counts(lines, |_, m| (0, m))),
    ("more than 1,000 relays", 3, |random, lines| counts(lines, |_, m| (*random.pick(&[1001, 1002, 1024, 9999]), m))),
    ("3 before 4", 3, |random, lines| counts(lines, |_, _| (*random.pick(&[0, 1001]), 3001))),
    ("3 before a departure", 3, |_, lines| insert(lines, lines.len(), b"x\n".into()).and_then(|()| counts(lines, |_, m| (0, m)))),
    ("more than 3,000 links", 4, |random, lines| counts(lines, |n, _| (n, *random.pick(&[3001, 3002, 4096, 9999])))),
    ("an end 0", 5, |random, lines| end(random, lines, |_| 0)),
    ("an end behind the last relay", 5, |random, lines| end(random, lines, |n| n + 1)),
    ("an end 9999", 5, |random, lines| end(random, lines, |_| 9999)),
    ("equal ends 0", 5, |random, lines| ends(random, lines, |_, _| (0, 0))),
    ("equal ends behind the last relay", 5, |random, lines| ends(random, lines, |n, _| (n + 1, n + 1))),
    ("relays from 0", 5, |_, lines| {
        let links = beginning(lines, b'e');
        links.iter().find(|&&at| two(&lines[at]).is_some_and(|(u, v)| u == 1 || v == 1))?;
        links.into_iter().try_for_each(|at| two(&lines[at]).map(|(u, v)| lines[at] = edge(u - 1, v - 1)))
    }),
    ("5 before a departure in a later line", 5, |random, lines| {
        let at = link(random, lines)?;
        lines[at] = edge(0, 1);
        insert(lines, random.within(at + 1, lines.len()), b"x\n".into())
    }),
    ("a departure at the end of a p line with a bad number", 18, |random, lines| {
        let at = problem(lines)?;
        let line =
            *random.pick(&[&b"p edge 0 1 \n"[..], b"p edge 1001 1\r\n", b"p edge 1 3001 \n", b"p edge 1 3001", b"p edge 0 01\n"]);
        set(lines, at, line.into())
    }),
    ("a departure at the end of an e line with an end 0", 18, |random, lines| {
        let at = link(random, lines)?;
        set(lines, at, b"e 0 1 \n".into())
    }),
    ("equal ends", 6, |random, lines| ends(random, lines, |_, (u, v)| if u < v { (u, u) } else { (v, v) })),
    ("a pair again", 7, |random, lines| again(random, lines, |_| ())),
    ("a pair again, the other way round", 7, |random, lines| again(random, lines, exchange)),
    ("every link twice", 7, |_, lines| {
        let links = beginning(lines, b'e');
        let last = *links.last().filter(|_| 2 * links.len() <= 3000)?;
        let mut turned: Lines = links.iter().map(|&at| lines[at].clone()).collect();
        turned.iter_mut().for_each(exchange);
        lines.splice(last + 1..last + 1, turned);
        counts(lines, |n, m| (n, 2 * m))
    }),
];

/// Every way of spoiling a drawing, with the number that it is refused with.
pub fn ways() -> impl Iterator<Item = (&'static str, u32, Spoil)> {
    LINES.into_iter().chain(WORDS).map(|(kind, spoil)| (kind, 18, spoil)).chain(NUMBERS)
}

/// Where the `p` line is.
fn problem(lines: &Lines) -> Option<usize> {
    beginning(lines, b'p').first().copied()
}

/// Where an `e` line is.
fn link(random: &mut Random, lines: &Lines) -> Option<usize> {
    let links = beginning(lines, b'e');
    links.get(random.below(links.len())).copied()
}

/// Where the `p` line or an `e` line is.
fn formed(random: &mut Random, lines: &Lines) -> Option<usize> {
    link(random, lines).filter(|_| !random.once_in(3)).or(problem(lines))
}

/// Other lines for all of them.
fn all(lines: &mut Lines, others: Lines) -> Option<()> {
    *lines = others;
    Some(())
}

/// Another line for one.
fn set(lines: &mut Lines, at: usize, line: Vec<u8>) -> Option<()> {
    lines[at] = line;
    Some(())
}

/// A line less.
fn without(lines: &mut Lines, at: usize) -> Option<()> {
    lines.remove(at);
    Some(())
}

/// A line more.
fn insert(lines: &mut Lines, at: usize, line: Vec<u8>) -> Option<()> {
    lines.insert(at, line);
    Some(())
}

/// A line more, anywhere.
fn put(random: &mut Random, lines: &mut Lines, line: &[u8]) -> Option<()> {
    insert(lines, random.below(lines.len() + 1), line.into())
}

/// One of these lines more, anywhere.
fn one_of(random: &mut Random, lines: &mut Lines, others: &[u8]) -> Option<()> {
    let others: Vec<&[u8]> = others.split_inclusive(|&byte| byte == b'\n').collect();
    let line = *random.pick(&others);
    put(random, lines, line)
}

/// Where something is in a line.
type Place = fn(&mut Random, &[u8]) -> usize;

/// Where a space is.
fn space(random: &mut Random, line: &[u8]) -> usize {
    let spaces: Vec<usize> = (0..line.len()).filter(|&at| line[at] == b' ').collect();
    *random.pick(&spaces)
}

/// Where the space in front of the first number is.
fn first(line: &[u8]) -> usize {
    if line[0] == b'p' { 6 } else { 1 }
}

/// Puts bytes into a line of the form.
fn within(random: &mut Random, lines: &mut Lines, place: Place, bytes: &[u8]) -> Option<()> {
    let line = formed(random, lines)?;
    let at = place(random, &lines[line]);
    set(lines, line, [&lines[line][..at], bytes, &lines[line][at..]].concat())
}

/// Puts bytes over those of a line of the form.
fn over(random: &mut Random, lines: &mut Lines, place: Place, bytes: &[u8]) -> Option<()> {
    let line = formed(random, lines)?;
    let at = place(random, &lines[line]);
    set(lines, line, [&lines[line][..at], bytes, &lines[line][at + bytes.len()..]].concat())
}

/// Puts bytes in front of the end of a line of the form.
fn behind(random: &mut Random, lines: &mut Lines, bytes: &[u8]) -> Option<()> {
    within(random, lines, |_, line| line.len() - 1, bytes)
}

/// Changes the numbers of a line of the form, as words.
fn tail(random: &mut Random, lines: &mut Lines, change: impl FnOnce(&mut Vec<String>)) -> Option<()> {
    let at = formed(random, lines)?;
    let (one, other) = two(&lines[at])?;
    let mut words = vec![one.to_string(), other.to_string()];
    change(&mut words);
    let mut line = lines[at][..first(&lines[at])].to_vec();
    words.iter().for_each(|word| line.extend([" ", word].concat().bytes()));
    line.push(b'\n');
    set(lines, at, line)
}

/// Puts another word into the `p` line.
fn word(lines: &mut Lines, word: &str) -> Option<()> {
    let at = problem(lines)?;
    set(lines, at, [b"p ", word.as_bytes(), &lines[at][6..]].concat())
}

/// Changes the two numbers of the `p` line.
fn counts(lines: &mut Lines, change: impl FnOnce(u32, u32) -> (u32, u32)) -> Option<()> {
    let at = problem(lines)?;
    let (n, m) = two(&lines[at])?;
    let (n, m) = change(n, m);
    set(lines, at, format!("p edge {n} {m}\n").into_bytes())
}

/// Changes the two ends of a link, which go with n.
fn ends(random: &mut Random, lines: &mut Lines, change: impl FnOnce(u32, (u32, u32)) -> (u32, u32)) -> Option<()> {
    let at = link(random, lines)?;
    let (n, _) = two(&lines[problem(lines)?])?;
    let (u, v) = change(n, two(&lines[at])?);
    set(lines, at, edge(u, v))
}

/// Changes one end of a link.
fn end(random: &mut Random, lines: &mut Lines, change: fn(u32) -> u32) -> Option<()> {
    let second = random.once_in(2);
    ends(random, lines, |n, (u, v)| if second { (u, change(n)) } else { (change(n), v) })
}

/// Puts an earlier link in the place of a later one.
fn again(random: &mut Random, lines: &mut Lines, change: fn(&mut Vec<u8>)) -> Option<()> {
    let links = beginning(lines, b'e');
    let later = random.within(1, links.len().max(2) - 1);
    let to = *links.get(later)?;
    let mut line = lines[links[random.below(later)]].clone();
    change(&mut line);
    set(lines, to, line)
}
