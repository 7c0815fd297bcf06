//! What must hold of routes, of kept links, of the first relay of an order and of forests, whoever found them.

use crate::forests::links;
use crate::sweep::Wish;
use crate::table::Network;
use crate::tally::Tally;

/// Whether two relays in service are the ends of a link, one with a mark if there are marks.
fn joined(net: &Network, marks: Option<&[u16]>, one: u16, two: u16) -> bool {
    let (low, high) = (one.min(two), one.max(two));
    let here = |link: usize| net.lows[link] == low && net.highs[link] == high && net.whole(link);
    (0..net.lows.len()).any(|link| here(link) && marks.is_none_or(|marks| marks[link] == 1))
}

/// Routes as the two lists give them: from end to end along the links, those with a mark if there are marks, and without a relay
/// in common between the ends. `who` found them.
pub fn disjoint(
    tally: &mut Tally,
    who: &'static str,
    net: &Network,
    marks: Option<&[u16]>,
    wish: Wish,
    (counts, relays): (&[u16], &[u16]),
) {
    let mut seen = vec![false; usize::from(net.n)];
    let (mut direct, mut at) = (0, 0);
    for &count in counts {
        let route = &relays[at..at + usize::from(count)];
        at += route.len();
        let input = &(net, wish, route);
        tally.holds(who, "a route has two ends", route.len() >= 2, input);
        let ends = (route[0], route[route.len() - 1]);
        tally.holds(who, "a route joins its ends", ends == (wish.from, wish.to), input);
        direct += usize::from(route.len() == 2);
        let along = route.windows(2).all(|two| joined(net, marks, two[0], two[1]));
        tally.holds(who, "a route runs along its links", along, input);
        for &relay in &route[1..route.len() - 1] {
            let fresh = relay != wish.from && relay != wish.to && !seen[usize::from(relay)];
            tally.holds(who, "no relay between the ends is used twice", fresh, input);
            seen[usize::from(relay)] = true;
        }
    }
    tally.holds(who, "one route at most goes straight", direct <= 1, &(net, wish));
    tally.holds(who, "the count is that of the relays written", at == relays.len(), &(net, wish));
}

fn root(parent: &mut [usize], mut relay: usize) -> usize {
    while parent[relay] != relay {
        parent[relay] = parent[parent[relay]];
        relay = parent[relay];
    }
    relay
}

/// The parts into which the links, those with a mark if there are marks, join the live relays, which are in service and not dead: the
/// lowest relay of each one's part.
pub fn parts(net: &Network, dead: &[bool], marks: Option<&[u16]>) -> Vec<usize> {
    let mut parent: Vec<usize> = (0..usize::from(net.n)).collect();
    for link in 0..net.lows.len() {
        let (a, b) = (usize::from(net.lows[link]), usize::from(net.highs[link]));
        if net.whole(link) && !dead[a] && !dead[b] && marks.is_none_or(|marks| marks[link] == 1) {
            let (a, b) = (root(&mut parent, a), root(&mut parent, b));
            parent[a.max(b)] = a.min(b);
        }
    }
    (0..parent.len()).map(|relay| root(&mut parent, relay)).collect()
}

/// Networks by where their order starts.
pub const STARTS: [&str; 6] = [
    "no links",
    "relay 0 alone has the most links",
    "relay 0 and others have the most links",
    "another relay alone has the most links",
    "several others have the most links",
    "the first relay and relay 0 are not joined",
];

/// Networks by the links that the last relay of the order has to relays in service.
pub const ENDS: [&str; 6] = [
    "fewer than two relays in service",
    "the last of the order has no link",
    "the last of the order has one link",
    "the last of the order has 2 to 31 links",
    "the last of the order has 32 links",
    "the last of the order has more than 32 links",
];

/// The first relay of an order: it is in service, none that is has more links to such relays, and none with as many has a lower
/// number. Counts which such network it is.
pub fn first_relay(tally: &mut Tally, net: &Network, first: u16) {
    let links = links(net);
    let most = *links.iter().max().expect("a relay");
    let busy = |&relay: &u16| links[usize::from(relay)] == most;
    let lowest = net.in_service().into_iter().find(busy);
    tally.holds("order", "the first relay has the most links, of equals the lowest number", lowest == Some(first), net);
    let alone = net.in_service().iter().filter(|relay| busy(relay)).count() == 1;
    let start = match (most, links[0] == most, alone) {
        (0, ..) => 0,
        (_, true, true) => 1,
        (_, true, false) => 2,
        (_, false, true) => 3,
        (_, false, false) => 4,
    };
    tally.start(STARTS[start]);
    if net.serves(0) && parts(net, &vec![false; links.len()], None)[usize::from(first)] != 0 {
        tally.start(STARTS[5]);
    }
}

/// The counts of the forests: of the relays in service each but i may have a link in forest i, and with one another they are the links
/// with both ends in service.
pub fn forest_counts(tally: &mut Tally, net: &Network, numbers: &[u16]) {
    let (relays, highest) = (net.in_service().len(), numbers.iter().copied().max().unwrap_or(0));
    let mut counts = vec![0; usize::from(highest) + 1];
    numbers.iter().for_each(|&forest| counts[usize::from(forest)] += 1);
    let few = (1..counts.len()).all(|forest| counts[forest] + forest <= relays);
    tally.holds("split", "forest i has at most i links fewer than relays are in service", few, net);
    let whole = (0..net.lows.len()).filter(|&link| net.whole(link)).count();
    let all: usize = counts[1..].iter().sum();
    tally.holds(
        "split",
        "the forests hold the links with both ends in service",
        all == whole && numbers.len() == net.lows.len(),
        net,
    );
}

/// The network of the links with a mark.
pub fn kept(net: &Network, marks: &[u16]) -> Network {
    let chosen = |list: &[u16]| list.iter().zip(marks).filter(|two| *two.1 == 1).map(|two| *two.0).collect();
    Network { lows: chosen(&net.lows), highs: chosen(&net.highs), ..net.clone() }
}
