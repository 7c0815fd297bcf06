//! The library's Route and Route with links against the second version's: the report and every entry of the lists, which are too
//! short, exact or longer; and the flow program on the same wish.

use crate::facts::disjoint;
use crate::flow;
use crate::lengths::Lengths;
use crate::library::{self, Report};
use crate::over::{Lent, route_links};
use crate::random::Random;
use crate::sweep::{self, Wish};
use crate::table::Network;
use crate::tally::Tally;

/// Lists for a wish that hold anything; for a k above 40 those for 40.
fn lent(random: &mut Random, net: &Network, wish: Wish, lengths: Lengths) -> Lent {
    let (k, n) = (usize::from(wish.k.min(40)), usize::from(net.n));
    let mut list = |exact: usize| {
        let length = lengths(random, exact);
        random.numbers(length)
    };
    let (counts, relays) = (list(k), list((n + 2 * k).saturating_sub(2)));
    Lent { counts, relays, links: list((n + k).saturating_sub(2)), scratch: list(k * n) }
}

/// A wish through Route and Route with links, and where it is met through the flow program. Gives the code of Route's report.
pub fn routed(random: &mut Random, tally: &mut Tally, net: &Network, wish: Wish, lengths: Lengths) -> u32 {
    let Wish { k, from, to } = wish;
    let Lent { mut counts, mut relays, mut scratch, .. } = lent(random, net, wish, lengths);
    let mut theirs = (counts.clone(), relays.clone(), scratch.clone());
    let reference = Report::one(sweep::route(net, wish, &mut counts, &mut relays, &mut scratch));
    let report = library::route(net, k, from, to, &mut theirs.0, &mut theirs.1, &mut theirs.2);
    tally.same("route", reference.code, (report, &theirs), (reference, &(counts, relays, scratch)), &(net, wish));
    with_links(random, tally, net, wish, lengths);
    if report.code == 0 {
        let mut marks = vec![9; net.lows.len()];
        library::cut(net, k, &mut marks);
        let lists = (&theirs.0[..usize::from(k)], &theirs.1[..report.answer[0] as usize]);
        disjoint(tally, "route", net, Some(&marks), wish, lists);
        flowed(tally, net, wish);
    }
    report.code
}

fn with_links(random: &mut Random, tally: &mut Tally, net: &Network, wish: Wish, lengths: Lengths) {
    let Wish { k, from, to } = wish;
    let mut ours = lent(random, net, wish, lengths);
    let mut theirs = ours.clone();
    let reference = Report::one(route_links(net, wish, &mut ours));
    let Lent { counts, relays, links, scratch } = &mut theirs;
    let report = library::route_links(net, k, from, to, counts, relays, links, scratch);
    tally.same("route_links", reference.code, (report, theirs), (reference, ours), &(net, wish));
}

/// Where there are k routes the flow program has k, too.
pub fn flowed(tally: &mut Tally, net: &Network, wish: Wish) {
    let (k, size) = (usize::from(wish.k), usize::from(net.n));
    let (mut counts, mut relays) = (vec![0; k], vec![0; size - 2 + 2 * k]);
    let written = flow::route(net, wish, &mut counts, &mut relays);
    tally.holds("flow", "it finds as many routes", written.is_some(), &(net, wish));
    relays.truncate(written.unwrap_or(0));
    disjoint(tally, "flow", net, None, wish, (&counts, &relays));
}
