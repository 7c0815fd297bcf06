//! Drawings in the DIMACS edge format (document 02, #106), as several tools write them.

use crate::random::Random;
use crate::table::Network;

/// The lines of a drawing, each with its end.
pub type Lines = Vec<Vec<u8>>;

/// The `p` line and the `e` lines of a table, accepted or not: relays from 1, the low end of a link first.
pub fn plain(net: &Network) -> Lines {
    let mut lines = vec![format!("p edge {} {}\n", net.n, net.lows.len()).into_bytes()];
    lines.extend(net.links().map(|(a, b)| edge(u32::from(a) + 1, u32::from(b) + 1)));
    lines
}

/// The line of a link.
pub fn edge(u: u32, v: u32) -> Vec<u8> {
    format!("e {u} {v}\n").into_bytes()
}

/// Where the lines are that begin with a letter.
pub fn beginning(lines: &Lines, letter: u8) -> Vec<usize> {
    (0..lines.len()).filter(|&at| lines[at].first() == Some(&letter)).collect()
}

/// The two numbers at the end of a line.
pub fn two(line: &[u8]) -> Option<(u32, u32)> {
    let text = std::str::from_utf8(line).ok()?;
    let mut words = text.trim_end().rsplit(' ').map(str::parse);
    let (second, first) = (words.next()?.ok()?, words.next()?.ok()?);
    Some((first, second))
}

/// Exchanges the ends of a link's line.
pub fn exchange(line: &mut Vec<u8>) {
    if let Some((u, v)) = two(line).filter(|_| line[0] == b'e') {
        *line = edge(v, u);
    }
}

/// What a tool makes of the plain lines of a drawing; its table stays the same.
pub type Style = fn(&mut Random, &mut Lines);

/// The styles of tools and of those who use them, then comments of every kind.
pub const STYLES: [(&str, Style); 15] = [
    ("bare", |_, _| ()),
    ("the high end first", |_, lines| lines.iter_mut().for_each(exchange)),
    ("ends in either order", |random, lines| lines.iter_mut().filter(|_| random.once_in(2)).for_each(exchange)),
    ("a title, as scripts around networkx write it", |_, lines| lines.insert(0, b"c networkx.Graph\n".into())),
    ("ends in either order, as scripts around SageMath write it", |random, lines| {
        lines.iter_mut().filter(|_| random.once_in(3)).for_each(exchange);
        let title = [&b"c Graph on "[..], lines[0].split(|&byte| byte == b' ').nth(2).unwrap_or(b""), b" vertices\n"].concat();
        lines.splice(0..0, [title, b"c 1-based labels\n".into()]);
    }),
    ("a generator's banner", |random, lines| {
        lines.iter_mut().for_each(exchange);
        let seed = format!("c seed        : {}\n", random.draw());
        let banner = [
            b"c\n".into(),
            b"c graph generator\n".into(),
            seed.into_bytes(),
            b"c density     : 0.100000\n".into(),
            b"c\n".into(),
        ];
        lines.splice(0..0, banner);
    }),
    ("the banner of a colouring graph", |_, lines| {
        let banner =
            ["c FILE: relays.col\n", "c\n", "c SOURCE: (planner@example.org)\n", "c DESCRIPTION: drawn by hand\n", "c \n"];
        lines.splice(0..0, banner.map(|line| line.as_bytes().to_vec()));
    }),
    ("a comment in front of each line", |random, lines| {
        *lines = lines.drain(..).flat_map(|line| [comment(random), line]).collect()
    }),
    ("comments anywhere", |random, lines| {
        for _ in 0..random.within(1, 9) {
            let (at, comment) = (random.below(lines.len() + 1), comment(random));
            lines.insert(at, comment);
        }
    }),
    ("comments behind the last line", |random, lines| (0..random.within(1, 3)).for_each(|_| lines.push(comment(random)))),
    ("c alone", |random, lines| lines.insert(random.below(lines.len() + 1), b"c\n".into())),
    ("c and a space alone", |random, lines| lines.insert(random.below(lines.len() + 1), b"c \n".into())),
    ("every byte but 10 in a comment", |random, lines| {
        let all = (0..=255).filter(|&byte| byte != b'\n');
        lines.insert(random.below(lines.len() + 1), b"c ".iter().copied().chain(all).chain([b'\n']).collect());
    }),
    ("lines of the form as comments", |random, lines| {
        let other = [b"c ", &lines[random.below(lines.len())][..]].concat();
        lines.insert(random.below(lines.len() + 1), other);
    }),
    ("a comment of more than 65,535 bytes", |random, lines| {
        let mut long = random.bytes(65_540);
        long.iter_mut().filter(|byte| **byte == b'\n').for_each(|byte| *byte = b' ');
        lines.insert(random.below(lines.len() + 1), [&b"c "[..], &long, b"\n"].concat());
    }),
];

/// A comment line.
fn comment(random: &mut Random) -> Vec<u8> {
    let some = random.below(12);
    let mut bytes = random.bytes(some);
    bytes.iter_mut().filter(|byte| **byte == b'\n').for_each(|byte| *byte = b'c');
    let words: [&[u8]; 10] = [b"", b" ", b" site 7", b" p edge 2 1", b" e 1 2", b" \0", b" \xff\x80", b" \r", b"  ", b" \t"];
    if random.once_in(2) { [b"c ", &bytes[..], b"\n"].concat() } else { [b"c", *random.pick(&words), b"\n"].concat() }
}

/// A drawing of a network in some style, and which.
pub fn drawn(random: &mut Random, net: &Network) -> (&'static str, Lines) {
    let (style, make) = *random.pick(&STYLES);
    let mut lines = plain(net);
    make(random, &mut lines);
    (style, lines)
}

/// Sets the number of links of a drawing to that of its `e` lines, so that damage behind the `p` line is met.
pub fn mend(text: &mut Vec<u8>) {
    let mut lines: Lines = text.split_inclusive(|&byte| byte == b'\n').map(<[u8]>::to_vec).collect();
    let links = beginning(&lines, b'e').len();
    let problem = beginning(&lines, b'p').first().copied();
    if let Some((at, (n, _))) = problem.and_then(|at| Some((at, two(&lines[at])?))) {
        lines[at] = format!("p edge {n} {links}\n").into_bytes();
        *text = lines.concat();
    }
}
