//! The proved library against the second version: the same answers and lists from both, and what must hold of them.

use crate::boundaries::{boundaries, withdrawn};
use crate::drawings::drawn;
use crate::facts::{first_relay, forest_counts, kept, parts};
use crate::flow::greatest;
use crate::generate::{any, damage};
use crate::imported::{drawings, every_byte, import};
use crate::last::last_two;
use crate::lengths::{Lengths, any_length, mostly_enough};
use crate::library::{self, Report};
use crate::printed::{KEEP, PLAN, keep_input, printed};
use crate::random::Random;
use crate::reported::{self, largest, reported};
use crate::routed::{flowed, routed};
use crate::sets::{self, sent};
use crate::sheets::Known;
use crate::states::kinds;
use crate::sweep::Wish;
use crate::table::{self, Network};
use crate::tally::Tally;
use crate::texts::{input, read, texts};
use crate::verified::{before_sheets, other_sheets, our_sheet};
use crate::wishes::{any_wish, wish};
use crate::{forests, text};

fn two_lists(random: &mut Random, lengths: Lengths, exact: usize) -> (Vec<u16>, Vec<u16>) {
    let (first, second) = (lengths(random, exact), lengths(random, exact));
    (random.numbers(first), random.numbers(second))
}

fn tables(random: &mut Random, tally: &mut Tally, net: &Network) {
    kinds(net).into_iter().for_each(|kind| tally.states(kind));
    let reference = Report::of(table::check(net).map(|()| [0, 0]));
    tally.same("check", reference.code, library::check(net), reference, net);

    let edge = [0, 1, 2, 998, 999, 1000, 1001, 65535];
    let mut relay = || if random.once_in(2) { *random.pick(&edge) } else { random.below(1003) as u16 };
    let (a, b) = (relay(), relay());
    let reference = Report::one(table::pair(a, b));
    tally.same("pair", reference.code, library::pair(a, b), reference, &(a, b));
}

fn written(random: &mut Random, tally: &mut Tally, net: &Network, lengths: Lengths) {
    let size = lengths(random, text::text(net).len());
    let mut ours = random.bytes(size);
    let mut theirs = ours.clone();
    let reference = Report::of(text::write(net, &mut ours).map(|length| [length as u64, 0]));
    let report = library::write(net, &mut theirs);
    tally.same("write", reference.code, (report, theirs), (reference, ours), net);
}

fn ordered(random: &mut Random, tally: &mut Tally, net: &Network, lengths: Lengths) {
    let (mut relays, mut places) = two_lists(random, lengths, usize::from(net.n));
    let (mut library_relays, mut library_places) = (relays.clone(), places.clone());
    let reference = Report::of(forests::order(net, &mut relays, &mut places).map(|()| [0, 0]));
    let report = library::order(net, &mut library_relays, &mut library_places);
    tally.same("order", reference.code, (report, library_relays, library_places), (reference, relays, places), net);

    let size = lengths(random, net.lows.len());
    let mut ours = random.numbers(size);
    let mut theirs = ours.clone();
    let reference = Report::one(forests::split(net, &mut ours));
    let report = library::split(net, &mut theirs);
    tally.same("split", reference.code, (report, theirs), (reference, ours), net);

    let size = lengths(random, net.lows.len());
    let mut ours = random.numbers(size);
    let mut theirs = ours.clone();
    let k = random.below(40) as u16;
    let reference = Report::one(forests::cut(net, k, &mut ours));
    let report = library::cut(net, k, &mut theirs);
    tally.same("cut", reference.code, (report, theirs), (reference, ours), &(net, k));
}

/// The first relay of the library's order, and the counts of its forests.
fn started(tally: &mut Tally, net: &Network) {
    let mut lists = [vec![0; usize::from(net.n)], vec![0; usize::from(net.n)]];
    let [relays, places] = &mut lists;
    library::order(net, relays, places);
    if net.states.contains(&1) {
        first_relay(tally, net, relays[0]);
    }
    let mut numbers = vec![0; net.lows.len()];
    library::split(net, &mut numbers);
    forest_counts(tally, net, &numbers);
}

/// Fewer than k dead relays among those in service, at times all about one relay, and any number of withdrawn ones.
fn dead(random: &mut Random, net: &Network, k: u16) -> Vec<bool> {
    let mut dead: Vec<bool> = net.states.iter().map(|&state| state == 0 && random.once_in(2)).collect();
    let relays = net.in_service();
    if relays.is_empty() {
        return dead;
    }
    let centre = *random.pick(&relays);
    let around: Vec<u16> = (0..net.lows.len())
        .filter(|&link| (net.lows[link] == centre || net.highs[link] == centre) && net.whole(link))
        .map(|link| net.lows[link] ^ net.highs[link] ^ centre)
        .collect();
    let near = random.once_in(2) && !around.is_empty();
    for _ in 0..random.below(usize::from(k)) {
        let relay = *random.pick(if near { &around } else { &relays });
        dead[usize::from(relay)] = true;
    }
    dead
}

/// Kept links against all links: with fewer than k relays dead they join the same live relays, and between two relays
/// there are as many disjoint routes, counted up to k.
fn certified(random: &mut Random, tally: &mut Tally, net: &Network) {
    let relays = net.in_service();
    for _ in 0..3 {
        let k = random.within(1, 32).min(random.within(1, 32)).min(random.within(1, 32)) as u16;
        let mut marks = vec![9; net.lows.len()];
        let report = library::cut(net, k, &mut marks);
        let ones = marks.iter().filter(|&&mark| mark == 1).count();
        let counted = report == Report { code: 0, answer: [ones as u64, 0] };
        tally.holds("cut", "the count is that of the kept links", counted, &(net, k));
        let few = relays.len() * usize::from(k);
        tally.holds("cut", "at most k times the relays in service is what is kept", ones <= few, &(net, k));

        let dead = dead(random, net, k);
        let same = parts(net, &dead, None) == parts(net, &dead, Some(&marks));
        tally.holds("cut", "kept links join what all links join, fewer than k dead", same, &(net, k, &dead));

        if relays.len() < 2 {
            continue;
        }
        let (from, to) = (*random.pick(&relays), *random.pick(&relays));
        if from != to {
            let (less, most) = (kept(net, &marks), usize::from(k));
            let (all, over_kept) = (greatest(net, from, to, most), greatest(&less, from, to, most));
            tally.holds("cut", "kept links have as many disjoint routes, up to k", all == over_kept, &(net, k, from, to));
            flowed(tally, net, Wish { k: all as u16, from, to });
        }
    }
}

/// A table through every operation, with some wishes if it is accepted; then it gives the forest of each link.
pub fn operations(random: &mut Random, tally: &mut Tally, net: &Network, wishes: usize) -> Option<Vec<u16>> {
    tables(random, tally, net);
    written(random, tally, net, any_length);
    ordered(random, tally, net, any_length);
    if table::check(net).is_err() {
        routed(random, tally, net, Wish { k: 2, from: 1, to: 0 }, mostly_enough);
        before_sheets(random, tally, net);
        return None;
    }
    started(tally, net);
    last_two(random, tally, net);
    certified(random, tally, net);
    let numbers = forests::numbers(net);
    let known = Known { net, numbers: &numbers };
    for _ in 0..wishes {
        let wish = wish(random, net, &numbers);
        routed(random, tally, net, wish, mostly_enough);
        let sheet = printed(random, tally, &PLAN, &input(net, wish).0, mostly_enough);
        our_sheet(random, tally, known, &sheet);
    }
    other_sheets(random, tally, known);
    Some(numbers)
}

/// A table, with its texts, through every operation.
fn whole(random: &mut Random, tally: &mut Tally, net: &Network) {
    let wish = match operations(random, tally, net, 4) {
        None => any_wish(random, net),
        Some(numbers) => wish(random, net, &numbers),
    };
    texts(random, tally, net, wish);
    drawings(random, tally, net);
    reported(random, tally, net);
}

/// One network from a seed.
pub fn case(seed: u64, tally: &mut Tally) {
    let random = &mut Random::new(seed);
    let mut net = any(random, 1000);
    if random.once_in(3) {
        for _ in 0..random.within(1, 2) {
            damage(random, &mut net);
        }
    }
    whole(random, tally, &net);
}

/// A network with links through every operation, with lists of exact length and a wish that is met.
fn exactly(random: &mut Random, tally: &mut Tally, net: &Network) {
    let exact: Lengths = |_, exact| exact;
    let numbers = forests::numbers(net);
    let link = (0..numbers.len()).max_by_key(|&link| numbers[link]).expect("a link");
    let wish = Wish { k: numbers[link].min(32), from: net.highs[link], to: net.lows[link] };
    let (input, line) = input(net, wish);
    written(random, tally, net, exact);
    read(random, tally, &input[line..], exact);
    let drawing = drawn(random, net).1.concat();
    import(random, tally, &drawing, exact);
    let sent = sets::text(&sent(random, net).1);
    reported::set(random, tally, net.n, &sent, exact);
    ordered(random, tally, net, exact);
    routed(random, tally, net, wish, exact);
    printed(random, tally, &PLAN, &input, exact);
    let asked = keep_input(random, &input[line..]).0;
    printed(random, tally, &KEEP, &asked, exact);
}

/// The networks at the boundaries from a seed: each with all relays in service and with some withdrawn, both with lists of exact
/// length and a wish that is met, one of the two as any other, and then with its highest pair of relays linked twice; and a small
/// drawing and a small set of reports with every byte in every place, and the largest sets. Gives how many networks there are.
pub fn boundary_cases(seed: u64, tally: &mut Tally) -> usize {
    let random = &mut Random::new(seed);
    let nets = boundaries(random);
    every_byte(random, tally);
    reported::every_byte(random, tally);
    largest(random, tally);
    for (number, net) in nets.iter().enumerate() {
        let both = [net.clone(), withdrawn(net)];
        both.iter().for_each(|net| exactly(random, tally, net));
        let net = &both[number % 2];
        whole(random, tally, net);

        let Network { lows, highs, .. } = net;
        let m = lows.len();
        let highest = (0..m).max_by_key(|&link| (highs[link], lows[link])).expect("a link");
        let other = (highest + random.within(1, m - 1)) % m;
        let mut twice = net.clone();
        (twice.lows[other], twice.highs[other]) = (lows[highest], highs[highest]);
        whole(random, tally, &twice);
    }
    nets.len()
}
