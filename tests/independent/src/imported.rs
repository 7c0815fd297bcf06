//! The library's import against the second version: drawings of a network in several styles, spoilt and damaged, into lists that are too
//! short, exact or longer.

use crate::dimacs::{PROBLEM, line};
use crate::drawings::drawn;
use crate::generate::scratch;
use crate::lengths::{Lengths, any_length, mostly_enough};
use crate::random::Random;
use crate::spoilt::ways;
use crate::table::{Network, check};
use crate::tally::{ROOMS, Tally};
use crate::texts::{IMPORT, faithful, into_lists};
use crate::variants::at_every_byte;

/// How many entries lows, highs and states need for a drawing; a few where its `p` line is bad.
fn announced(text: &[u8]) -> [usize; 3] {
    let (relays, links) = line(text, 0, PROBLEM).map_or((5, 7), |(problem, _)| (problem[0].min(1000), problem[1].min(3000)));
    [links, links, relays].map(usize::from)
}

/// A drawing through the import.
pub fn import(random: &mut Random, tally: &mut Tally, text: &[u8], lengths: Lengths) {
    let lengths = announced(text).map(|exact| lengths(random, exact));
    into_lists(random, tally, &IMPORT, text, lengths);
}

/// A drawing of an accepted network in some style, into lists of some kinds.
fn good(random: &mut Random, tally: &mut Tally, net: &Network) {
    let (style, lines) = drawn(random, net);
    let text = lines.concat();
    let serving = Network::serving(net.n, net.lows.clone(), net.highs.clone());
    tally.drawing(style);
    for _ in 0..3 {
        let (room, more) = *random.pick(&ROOMS);
        let lengths = std::array::from_fn(|list| announced(&text)[list].checked_add_signed(more[list]));
        let [Some(lows), Some(highs), Some(states)] = lengths else { continue };
        tally.drawing(room);
        let lists = into_lists(random, tally, &IMPORT, &text, [lows, highs, states]);
        if more.iter().all(|&more| more >= 0) {
            faithful(tally, "import", &serving, &lists, &text);
        }
    }
}

/// Drawings of an accepted network that are spoilt in some ways.
fn bad(random: &mut Random, tally: &mut Tally, net: &Network) {
    let ways: Vec<_> = ways().collect();
    for _ in 0..8 {
        let (kind, _, spoil) = *random.pick(&ways);
        let mut lines = drawn(random, net).1;
        if spoil(random, &mut lines).is_some() {
            tally.drawing(kind);
            import(random, tally, &lines.concat(), mostly_enough);
        }
    }
}

/// A drawing of a network, accepted or not, with some damage, and at every byte if it is small.
fn damaged(random: &mut Random, tally: &mut Tally, net: &Network) {
    let text = drawn(random, net).1.concat();
    for _ in 0..2 {
        let mut text = text.clone();
        (0..random.within(1, 2)).for_each(|_| scratch(random, &mut text));
        tally.drawing("damaged");
        import(random, tally, &text, mostly_enough);
    }
    if text.len() <= 165 {
        tally.drawing("damaged at every byte");
        for variant in at_every_byte(random, &text) {
            import(random, tally, &variant, mostly_enough);
        }
    }
}

/// The drawings of a network.
pub fn drawings(random: &mut Random, tally: &mut Tally, net: &Network) {
    if check(net).is_ok() {
        (0..2).for_each(|_| good(random, tally, net));
        bad(random, tally, net);
    } else {
        tally.drawing("of a bad table");
        let text = drawn(random, net).1.concat();
        import(random, tally, &text, any_length);
    }
    damaged(random, tally, net);
}

/// A small drawing with a line of each form, in which every byte is put over and in front of every one; and its beginnings.
pub fn every_byte(random: &mut Random, tally: &mut Tally) {
    let text = b"c\nc a\np edge 3 2\nc\ne 1 3\nc b \ne 3 2\nc \n";
    for at in 0..=text.len() {
        import(random, tally, &text[..at], mostly_enough);
        for byte in 0..=255 {
            let [front, back] = [&text[..at], &text[at..]];
            import(random, tally, &[front, &[byte], back].concat(), mostly_enough);
            import(random, tally, &[front, &[byte], back.get(1..).unwrap_or_default()].concat(), mostly_enough);
        }
    }
    tally.drawing("every byte in every place");
}
