//! Seeded networks of many kinds, tables that the check refuses, and damaged texts.

use crate::random::Random;
use crate::states::{spoil, withdraw};
use crate::table::Network;
use std::collections::HashSet;

/// The kinds of networks that `network` makes.
pub const KINDS: [&str; 14] =
    ["empty", "full", "ring", "path", "tree", "grid", "star", "wheel", "band", "clique", "bipartite", "cube", "random", "parts"];

pub(crate) type Links = Vec<(usize, usize)>;

/// All pairs of n relays.
pub(crate) fn full(n: usize) -> impl Iterator<Item = (usize, usize)> {
    (0..n).flat_map(|b| (0..b).map(move |a| (a, b)))
}

pub(crate) fn random_links(random: &mut Random, n: usize, m: usize) -> Links {
    let pairs = n * (n - 1) / 2;
    let mut seen = HashSet::new();
    if 2 * m > pairs {
        let mut all: Links = full(n).collect();
        random.shuffle(&mut all);
        all.truncate(m);
        return all;
    }
    while seen.len() < m {
        let (a, b) = (random.below(n), random.below(n));
        if a != b {
            seen.insert((a.min(b), a.max(b)));
        }
    }
    let mut links: Links = seen.into_iter().collect();
    links.sort();
    links
}

/// A tree hung onto the relays 0 to `done` − 1.
pub(crate) fn tree_from(random: &mut Random, done: usize, n: usize) -> Links {
    let reach = random.within(1, n);
    (done.max(1)..n).map(|b| (random.within(b.saturating_sub(reach), b - 1), b)).collect()
}

/// The links of one network of a kind with at most `n` relays, and how many relays it has.
fn links(random: &mut Random, kind: &str, n: usize) -> (usize, Links) {
    match kind {
        "empty" => (n, vec![]),
        "full" => (n.min(77), full(n.min(77)).collect()),
        "ring" => (n, (0..n).map(|a| (a, (a + 1) % n)).filter(|(a, b)| n > 2 || a < b).collect()),
        "path" => (n, (1..n).map(|b| (b - 1, b)).collect()),
        "tree" => (n, tree_from(random, 0, n)),
        "grid" => {
            let wide = random.within(1, n);
            let high = n / wide;
            let mut links = vec![];
            for row in 0..high {
                for column in 0..wide {
                    let here = row * wide + column;
                    if column + 1 < wide {
                        links.push((here, here + 1));
                    }
                    if row + 1 < high {
                        links.push((here, here + wide));
                    }
                }
            }
            (wide * high, links)
        }
        "star" => (n, (1..n).map(|b| (0, b)).collect()),
        "wheel" => {
            let mut links: Links = (1..n).map(|b| (0, b)).collect();
            if n > 3 {
                links.extend((1..n).map(|b| (b, b % (n - 1) + 1)));
            }
            (n, links)
        }
        "band" => {
            let width = random.within(1, 40);
            (n, (0..n).flat_map(|b| (b.saturating_sub(width)..b).map(move |a| (a, b))).collect())
        }
        "clique" => {
            let core = n.min(random.within(2, 70));
            let mut links: Links = full(core).collect();
            links.extend(tree_from(random, core, n));
            (n, links)
        }
        "bipartite" => {
            let one = random.within(1, 40).min(n);
            (n, (one..n).flat_map(|b| (0..one).map(move |a| (a, b))).collect())
        }
        "cube" => {
            let bits = (n.ilog2() as usize).min(8);
            let n = 1 << bits;
            (n, (0..n).flat_map(|a| (0..bits).map(move |bit| (a, a ^ 1 << bit))).filter(|(a, b)| a < b).collect())
        }
        "random" => {
            let most = (n * (n - 1) / 2).min(3000);
            let m = random.within(0, most);
            let m = if random.once_in(3) { most } else { m };
            (n, random_links(random, n, m))
        }
        _ => {
            let parts = random.within(1, 6);
            let (mut size, mut all) = (0, vec![]);
            for _ in 0..parts {
                let kind = KINDS[random.below(KINDS.len() - 1)];
                let wide = random.within(1, (n / parts).max(1));
                let (more, links) = links(random, kind, wide);
                if size + more <= n {
                    all.extend(links.into_iter().map(|(a, b)| (a + size, b + size)));
                    size += more;
                }
            }
            (size.max(1), all)
        }
    }
}

/// The table of these links, with the relays numbered anew and all in service.
pub(crate) fn table(links: Links, names: &[usize]) -> Network {
    let ends = |(a, b): (usize, usize)| (names[a].min(names[b]) as u16, names[a].max(names[b]) as u16);
    let (lows, highs) = links.into_iter().map(ends).unzip();
    Network::serving(names.len() as u16, lows, highs)
}

/// A network of a kind with at most `most` relays, which are numbered anew at random in most runs; all are in service.
pub fn network(random: &mut Random, kind: &str, most: usize) -> Network {
    let (n, mut links) = links(random, kind, most);
    let mut names: Vec<usize> = (0..n).collect();
    if !random.once_in(4) {
        random.shuffle(&mut names);
        random.shuffle(&mut links);
    }
    if random.once_in(3) {
        let dropped = random.below(links.len() + 1);
        links.truncate(links.len() - dropped / 4);
    }
    links.truncate(3000);
    table(links, &names)
}

/// A network of any kind, at times with withdrawn relays; small ones more often than large ones.
pub fn any(random: &mut Random, most: usize) -> Network {
    let top = *random.pick(&[4, 8, 16, 40, 100, 300, 1000, most]);
    let size = random.within(1, top.min(most));
    let kind = KINDS[random.below(KINDS.len())];
    let mut net = network(random, kind, size);
    withdraw(random, &mut net);
    net
}

/// Changes an accepted table into another: a link less, a link more, two links or two relays exchanged, a relay withdrawn or back in
/// service.
pub fn alter(random: &mut Random, net: &mut Network) {
    let (n, m) = (usize::from(net.n), net.lows.len());
    let (a, b) = (random.below(n) as u16, random.below(n) as u16);
    match random.below(5) {
        0 if m > 0 => {
            let at = random.below(m);
            net.lows.remove(at);
            net.highs.remove(at);
        }
        1 if m > 0 => {
            let (one, two) = (random.below(m), random.below(m));
            net.lows.swap(one, two);
            net.highs.swap(one, two);
        }
        2 => {
            let renamed = |relay: u16| {
                if relay == a {
                    b
                } else if relay == b {
                    a
                } else {
                    relay
                }
            };
            for (low, high) in net.lows.iter_mut().zip(&mut net.highs) {
                let (one, two) = (renamed(*low), renamed(*high));
                (*low, *high) = (one.min(two), one.max(two));
            }
        }
        3 => net.states[usize::from(a)] ^= 1,
        _ => {
            let (low, high) = (a.min(b), a.max(b));
            let taken = net.links().any(|link| link == (low, high));
            if a != b && !taken && m < 3000 {
                net.lows.push(low);
                net.highs.push(high);
            }
        }
    }
}

/// Damages a table, mostly so that the check refuses it.
pub fn damage(random: &mut Random, net: &mut Network) {
    let m = net.lows.len().min(net.highs.len());
    let at = random.below(m);
    let value = *random.pick(&[0, 1, net.n.wrapping_sub(1), net.n, net.n.wrapping_add(1), 999, 1000, 65535]);
    match random.below(15) {
        0 => net.n = 0,
        1 => net.n = 1001,
        2 => {
            net.n = *random.pick(&[1000, 1002, 65535, 1, 2, 3]);
            if random.once_in(2) {
                net.states.resize(usize::from(net.n), 1);
            }
        }
        3 => net.lows.push(value),
        4 => net.highs.push(value),
        5 => {
            net.lows.resize(3001, 0);
            net.highs.resize(3001, 1);
        }
        12.. => spoil(random, &mut net.states),
        _ if m == 0 => {
            net.lows.push(value);
            net.highs.push(random.below(usize::from(net.n) + 2) as u16);
        }
        6 => net.lows[at] = value,
        7 => net.highs[at] = value,
        8 => net.lows[at] = net.highs[at],
        9 => std::mem::swap(&mut net.lows[at], &mut net.highs[at]),
        10 if m < 3000 => {
            let to = random.below(m + 1);
            let (low, high) = (net.lows[at], net.highs[at]);
            net.lows.insert(to, low);
            net.highs.insert(to, high);
        }
        _ => {
            let other = random.below(m);
            net.lows[at] = net.lows[other];
            net.highs[at] = net.highs[other];
        }
    }
}

/// Damages a text in one place.
pub fn scratch(random: &mut Random, text: &mut Vec<u8>) {
    const BYTES: &[u8] = b"0123456789()( \n\r\tnetrelayslinkdwoucpg/:\0\x80\xff";
    let at = random.below(text.len());
    let byte = *random.pick(BYTES);
    match random.below(12) {
        _ if text.is_empty() => text.push(byte),
        0 => text.truncate(at),
        1 => {
            text.remove(at);
        }
        2 => text.insert(at, byte),
        3 => text.push(byte),
        4 => text[at] ^= 1 << random.below(8),
        5 => {
            let lines: Vec<&[u8]> = text.split_inclusive(|&byte| byte == b'\n').collect();
            let mut lines: Vec<Vec<u8>> = lines.into_iter().map(<[u8]>::to_vec).collect();
            let (from, to) = (random.below(lines.len()), random.below(lines.len()));
            match random.below(3) {
                0 => lines.swap(from, to),
                1 => lines.insert(to, lines[from].clone()),
                _ => drop(lines.remove(from)),
            }
            *text = lines.concat();
        }
        6..=8 => {
            let number =
                random.pick(&["0", "00", "1", "7", "31", "32", "33", "999", "1000", "1001", "3000", "3001", "9999", "10000", ""]);
            let digits: Vec<usize> = (0..text.len()).filter(|&at| text[at].is_ascii_digit()).collect();
            if digits.is_empty() {
                return;
            }
            let early = if random.once_in(2) { digits.len().min(12) } else { digits.len() };
            let at = digits[random.below(early)];
            let last = (at..text.len()).find(|&at| !text[at].is_ascii_digit()).unwrap_or(text.len());
            text.splice(at..last, number.bytes());
        }
        _ => text[at] = byte,
    }
}

/// Sets the number of links in a planner's input to that of its link lines, so that damage behind the header is met.
pub fn mend(text: &mut Vec<u8>) {
    let links = text.split(|&byte| byte == b'\n').filter(|line| line.starts_with(b"(link")).count();
    let at = text.windows(7).position(|word| word == b"(links ").map(|at| at + 7);
    if let Some(at) = at {
        let digits = text[at..].iter().take_while(|byte| byte.is_ascii_digit()).count();
        text.splice(at..at + digits, links.to_string().bytes());
    }
}
