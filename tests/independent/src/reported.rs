//! The library on link reports, against the second version: two reports of which one is to stand, and the sets of a network in several
//! styles, spoilt and damaged, into lists that are too short, exact or longer.

use crate::generate::scratch;
use crate::lengths::{Lengths, mostly_enough};
use crate::library::{self, Report};
use crate::random::Random;
use crate::reports::{self, LinkReport, Which, network};
use crate::sets::{self, LATER, any_report, crowd, sent};
use crate::spoilt_sets::{SETS, bad_line, bad_lines, linked, spoilt_set};
use crate::table::{Network, check};
use crate::tally::{ROOMS, Tally};
use crate::texts::{Reader, faithful, into_lists};
use crate::variants::at_every_byte;

/// Two texts through `stands`; gives what is said: 0 or 1 for the one that stands, or the refusal.
fn stands(tally: &mut Tally, first: &[u8], second: &[u8]) -> u32 {
    let outcome = reports::stands(first, second);
    let code = outcome.map_or_else(|refusal| refusal.number, |which| which as u32);
    let reference = Report::of(outcome.map(|which| match which {
        Which::First => [0, first.len() as u64],
        Which::Second => [1, second.len() as u64],
    }));
    let shown = [first, second].map(String::from_utf8_lossy);
    tally.same("stands", code, library::stands(first, second), reference, &shown);
    code
}

/// Two texts both ways round: if one of two stands, it does the other way round, too.
pub fn both_ways(tally: &mut Tally, first: &[u8], second: &[u8]) {
    let codes = (stands(tally, first, second), stands(tally, second, first));
    let turned = match codes {
        (0, 0) => first == second,
        (0, 1) | (1, 0) => true,
        (one, other) => one == other && one > 1,
    };
    tally.holds("stands", "turned round, the same report stands", turned, &[first, second].map(String::from_utf8_lossy));
}

/// A report beside others that differ from it in one way, beside no report, and damaged.
fn pairs(random: &mut Random, tally: &mut Tally, first: &LinkReport) {
    let one = first.text().into_bytes();
    for _ in 0..4 {
        let (kind, change) = *random.pick(&LATER);
        let mut second = first.clone();
        change(random, &mut second);
        tally.pair(kind);
        both_ways(tally, &one, second.text().as_bytes());
    }
    let (kind, other) = bad_line(random, first);
    tally.pair(kind);
    both_ways(tally, &one, &other);
    both_ways(tally, &bad_line(random, first).1, &other);
    for (kind, other) in [("two lines in one text", [&one[..], &one].concat()), ("an empty text", vec![])] {
        tally.pair(kind);
        both_ways(tally, &one, &other);
    }
    let mut other = one.clone();
    (0..random.within(1, 2)).for_each(|_| scratch(random, &mut other));
    tally.pair("damaged");
    both_ways(tally, &one, &other);
    if one.len() <= 40 && random.once_in(8) {
        tally.pair("damaged at every byte");
        at_every_byte(random, &one).iter().for_each(|other| both_ways(tally, &one, other));
    }
}

/// A set through `reports`, into lists of these lengths; gives them.
fn into(random: &mut Random, tally: &mut Tally, n: u16, text: &[u8], lengths: [usize; 3]) -> [Vec<u16>; 3] {
    let reader = Reader {
        name: "reports",
        n: Some(n),
        library: &move |text, lows, highs, states| library::reports(n, text, lows, highs, states),
        reference: &move |text, lows, highs, states| reports::reports(n, text, lows, highs, states),
    };
    into_lists(random, tally, &reader, text, lengths)
}

/// How many entries lows, highs and states need for a set; a few where it is refused.
fn needed(n: u16, text: &[u8]) -> [usize; 3] {
    let links = network(n, text, 3000, 1000).map_or(7, |net| net.lows.len());
    [links, links, usize::from(n.min(1000))]
}

/// A set through `reports`.
pub fn set(random: &mut Random, tally: &mut Tally, n: u16, text: &[u8], lengths: Lengths) {
    let lengths = needed(n, text).map(|exact| lengths(random, exact));
    into(random, tally, n, text, lengths);
}

/// The reports of an accepted network in some style, into lists of some kinds.
fn good(random: &mut Random, tally: &mut Tally, net: &Network) {
    let (style, reports) = sent(random, net);
    let (text, due) = (sets::text(&reports), sets::reported(net));
    let exact = [due.lows.len(), due.lows.len(), usize::from(net.n)];
    tally.set(style);
    for _ in 0..3 {
        let (room, more) = *random.pick(&ROOMS);
        let lengths = std::array::from_fn(|list| exact[list].checked_add_signed(more[list]));
        let [Some(lows), Some(highs), Some(states)] = lengths else { continue };
        tally.set(room);
        let lists = into(random, tally, net.n, &text, [lows, highs, states]);
        if more.iter().all(|&more| more >= 0) {
            faithful(tally, "reports", &due, &lists, &text);
        }
    }
}

/// The reports of an accepted network with a line that is none, and spoilt in other ways.
fn bad(random: &mut Random, tally: &mut Tally, net: &Network) {
    let lines: Vec<_> = bad_lines().collect();
    for _ in 0..4 {
        let mut reports = sent(random, net).1;
        let (kind, spoil) = *random.pick(&lines);
        let Some(bad) = reports.pop().and_then(|last| spoil(random, &last)) else { continue };
        tally.set(kind);
        let (front, back) = reports.split_at(random.below(reports.len() + 1));
        set(random, tally, net.n, &[sets::text(front), bad, sets::text(back)].concat(), mostly_enough);
    }
    for _ in 0..4 {
        let (kind, _, spoil) = *random.pick(&SETS);
        let reports = sent(random, net).1;
        if let Some((n, text)) = spoilt_set(random, spoil, net.n, reports) {
            tally.set(kind);
            set(random, tally, n, &text, mostly_enough);
        }
    }
}

/// A set of a network, accepted or not, with some damage, and at every byte if it is small.
fn damaged(random: &mut Random, tally: &mut Tally, n: u16, text: &[u8]) {
    for _ in 0..2 {
        let mut text = text.to_vec();
        (0..random.within(1, 2)).for_each(|_| scratch(random, &mut text));
        tally.set("damaged");
        set(random, tally, n, &text, mostly_enough);
    }
    if text.len() <= 120 {
        tally.set("damaged at every byte");
        for variant in at_every_byte(random, text) {
            set(random, tally, n, &variant, mostly_enough);
        }
    }
}

/// The reports of a network.
pub fn reported(random: &mut Random, tally: &mut Tally, net: &Network) {
    let reports = if check(net).is_ok() {
        good(random, tally, net);
        bad(random, tally, net);
        sent(random, net).1
    } else {
        tally.set("of a bad table");
        sets::plain(random, net)
    };
    let text = sets::text(&reports);
    set(random, tally, net.n, &text, mostly_enough);
    damaged(random, tally, net.n, &text);
    let any = any_report(random);
    let fits = |report: &&LinkReport| reports::read_one(report.text().as_bytes()).is_ok();
    let first = reports.get(random.below(reports.len())).filter(fits).unwrap_or(&any);
    [first, &any].into_iter().for_each(|first| pairs(random, tally, first));
}

/// A small set and two reports, in which every byte is put over and in front of every one; and their beginnings.
pub fn every_byte(random: &mut Random, tally: &mut Tally) {
    let text = b"(report 2 10 (sees 0))\n(report 1 0 (sees))\n(report 0 4294967295 (sees 1 2))\n";
    let one = b"(report 12 4294967295 (sees 3 10))\n";
    tally.set("every byte in every place");
    every_change(text, |text| set(random, tally, 3, text, mostly_enough));
    tally.pair("every byte in every place");
    every_change(one, |other| both_ways(tally, one, other));
}

fn every_change(text: &[u8], mut each: impl FnMut(&[u8])) {
    for at in 0..=text.len() {
        each(&text[..at]);
        for byte in 0..=255 {
            let [front, back] = [&text[..at], &text[at..]];
            each(&[front, &[byte], back].concat());
            each(&[front, &[byte], back.get(1..).unwrap_or_default()].concat());
        }
    }
}

/// Sets of 1,000 relays: 3,000 links and one more; all relays see each other, see each higher one or each lower one, with and without
/// a link among the last; with a relay that reports twice and with a line that is none, both at the end.
pub fn largest(random: &mut Random, tally: &mut Tally) {
    for links in [2999, 3000, 3001] {
        let text = sets::text(&linked(random, links));
        [1000, 999].into_iter().for_each(|n| set(random, tally, n, &text, mostly_enough));
        into(random, tally, 1000, &text, [3000, 3000, 1000]);
    }
    tally.set("3,000 links");
    let sees: [fn(u16, u16) -> bool; 5] =
        [|_, _| true, |a, b| a < b, |a, b| a > b, |a, b| a < b || a == 999, |a, b| a > b || (a, b) == (998, 999)];
    for sees in sees {
        let mut reports = crowd(random, sees);
        random.shuffle(&mut reports);
        let text = sets::text(&reports);
        set(random, tally, 1000, &text, |_, exact| exact);
        let again = [&text[..], reports[0].text().as_bytes()].concat();
        set(random, tally, 1000, &again, mostly_enough);
        set(random, tally, 1000, &[&again[..], b"("].concat(), mostly_enough);
    }
    tally.set("the largest sets");
}
