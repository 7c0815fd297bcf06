//! The last two relays of the order (document 02, #107): between them the library's Route gives as many routes as the last has links to
//! relays in service, in both directions, and the flow program finds no more.

use crate::facts::ENDS;
use crate::flow::greatest;
use crate::lengths::Lengths;
use crate::library;
use crate::random::Random;
use crate::routed::routed;
use crate::sweep::Wish;
use crate::table::Network;
use crate::tally::Tally;

/// The last two relays of an accepted network's order as the library lists it, the last one first.
fn last_of_order(net: &Network) -> Option<(u16, u16)> {
    let mut lists = [vec![0; usize::from(net.n)], vec![0; usize::from(net.n)]];
    let [relays, places] = &mut lists;
    library::order(net, relays, places);
    match relays[..net.in_service().len()] {
        [.., before, last] => Some((last, before)),
        _ => None,
    }
}

/// The last two of an accepted network's order, with lists of exact length for Route.
pub fn last_two(random: &mut Random, tally: &mut Tally, net: &Network) {
    let exact: Lengths = |_, exact| exact;
    let Some((last, before)) = last_of_order(net) else {
        return tally.last(ENDS[0]);
    };
    let far = net.links().filter_map(|(a, b)| if a == last { Some(b) } else { (b == last).then_some(a) });
    let links = far.filter(|&relay| net.serves(relay)).count();
    tally.last(match links {
        0 => ENDS[1],
        1 => ENDS[2],
        2..=31 => ENDS[3],
        32 => ENDS[4],
        _ => ENDS[5],
    });
    let greatest = greatest(net, last, before, usize::MAX);
    tally.holds("flow", "between the last two of the order as many routes as the last has links", greatest == links, net);
    for (from, to) in [(last, before), (before, last)] {
        let mut wish = Wish { k: links as u16, from, to };
        if (1..=32).contains(&links) {
            let met = routed(random, tally, net, wish, exact) == 0;
            tally.holds("route", "between the last two of the order as many routes as the last has links", met, &(net, wish));
        }
        wish.k += 1;
        if wish.k <= 32 && random.once_in(4) {
            let none = routed(random, tally, net, wish, exact) == 13;
            tally.holds("route", "between the last two of the order not one route more", none, &(net, wish));
        }
    }
}
