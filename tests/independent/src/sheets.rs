//! Seeded sheets for a network: such as hold though the planner would not print them, such as nearly hold, and changes of a sheet.

use crate::flow::{self, greatest};
use crate::forests::keeps;
use crate::over::over;
use crate::random::Random;
use crate::sheet::{Route, Sheet};
use crate::sweep::Wish;
use crate::table::Network;
use std::collections::VecDeque;

/// An accepted network with the forest of each link.
#[derive(Clone, Copy)]
pub struct Known<'a> {
    pub net: &'a Network,
    pub numbers: &'a [u16],
}

impl Known<'_> {
    /// How many links a cut to k keeps.
    fn kept(&self, k: u16) -> u16 {
        self.numbers.iter().filter(|&&number| keeps(k, number)).count() as u16
    }

    /// The sheet of these routes, with their links.
    fn sheet(&self, routes: Vec<Vec<u16>>) -> Sheet {
        let (from, to, k) = (routes[0][0], *routes[0].last().expect("a route has an end"), routes.len() as u16);
        let with_links = |relays: Vec<u16>| Route { over: over(self.net, &relays), relays };
        Sheet { from, to, k, routes: routes.into_iter().map(with_links).collect(), kept: self.kept(k) }
    }
}

/// Two different relays in service, if there are.
fn two(random: &mut Random, net: &Network) -> Option<(u16, u16)> {
    let relays = net.in_service();
    let count = relays.len();
    if count < 2 {
        return None;
    }
    let from = random.below(count);
    let to = (from + random.within(1, count - 1)) % count;
    Some((relays[from], relays[to]))
}

/// The routes of the flow program between two relays of a network, all that there are up to 32 or some of them.
fn flowing_routes(random: &mut Random, net: &Network) -> Option<Vec<Vec<u16>>> {
    let (from, to) = two(random, net)?;
    let most = greatest(net, from, to, 32);
    if most == 0 {
        return None;
    }
    let k = if random.once_in(2) { most } else { random.within(1, most) };
    let (mut counts, mut relays) = (vec![0; k], vec![0; usize::from(net.n) + 2 * k]);
    flow::route(net, Wish { k: k as u16, from, to }, &mut counts, &mut relays)?;
    let mut rest = &relays[..];
    let routes = counts.iter().map(|&count| rest.split_off(..usize::from(count)).expect("a route was written").to_vec());
    Some(routes.collect())
}

/// The routes of the flow program between two relays: a sheet that holds.
pub fn flowing(random: &mut Random, known: Known) -> Option<Sheet> {
    Some(known.sheet(flowing_routes(random, known.net)?))
}

/// Such routes as there were with all relays in service, with the count of today: a sheet that holds unless it touches a withdrawn
/// relay.
pub fn formerly(random: &mut Random, known: Known) -> Option<Sheet> {
    let Network { n, lows, highs, .. } = known.net.clone();
    Some(known.sheet(flowing_routes(random, &Network::serving(n, lows, highs))?))
}

/// A shortest route that avoids some links; withdrawn relays are not avoided.
fn shortest(net: &Network, (from, to): (u16, u16), avoided: &[u16]) -> Option<Vec<u16>> {
    let mut links: Vec<(u16, u16)> = net.links().collect();
    avoided.iter().for_each(|&link| links[usize::from(link)] = (to, to));
    let mut before = vec![None; usize::from(net.n)];
    let mut queue = VecDeque::from([to]);
    before[usize::from(to)] = Some(to);
    while let Some(relay) = queue.pop_front() {
        for &(a, b) in &links {
            let next = if a == relay { b } else { a };
            if (a == relay || b == relay) && before[usize::from(next)].is_none() {
                before[usize::from(next)] = Some(relay);
                queue.push_back(next);
            }
        }
    }
    let mut route = vec![from];
    while *route.last()? != to {
        route.push(before[usize::from(*route.last()?)]?);
    }
    Some(route)
}

/// Two routes without a link in common, half of the time through one relay; whether they share others is left open.
pub fn crossing(random: &mut Random, known: Known) -> Option<Sheet> {
    let (from, to) = two(random, known.net)?;
    let through = if random.once_in(2) { random.below(usize::from(known.net.n)) as u16 } else { to };
    let (mut used, mut routes) = (vec![], vec![]);
    for _ in 0..2 {
        let mut route = vec![from];
        for ends in [(from, through), (through, to)] {
            let part = shortest(known.net, ends, &used)?;
            used.extend(over(known.net, &part));
            route.extend(&part[1..]);
        }
        routes.push(route);
    }
    Some(known.sheet(routes))
}

/// The direct route twice.
pub fn direct_twice(random: &mut Random, known: Known) -> Option<Sheet> {
    let Network { lows, highs, .. } = known.net;
    let link = random.below(lows.len());
    let route = vec![*highs.get(link)?, lows[link]];
    Some(known.sheet(vec![route.clone(), route]))
}

/// A route over a link and back, from a relay to itself.
pub fn there_and_back(random: &mut Random, known: Known) -> Option<Sheet> {
    let Network { lows, highs, .. } = known.net;
    let link = random.below(lows.len());
    Some(known.sheet(vec![vec![*highs.get(link)?, lows[link], highs[link]]]))
}

/// How a sheet is changed.
pub type Change = fn(&mut Random, Known, &mut Sheet);

/// Changes after which a sheet that holds does so still.
pub const STILL: [(&str, Change); 3] = [
    ("in another order", |random, _, sheet| random.shuffle(&mut sheet.routes)),
    ("turned round", |_, _, sheet| {
        std::mem::swap(&mut sheet.from, &mut sheet.to);
        for Route { relays, over } in &mut sheet.routes {
            relays.reverse();
            over.reverse();
        }
    }),
    ("fewer routes and k", |random, known, sheet| {
        random.shuffle(&mut sheet.routes);
        sheet.routes.truncate(random.within(1, sheet.routes.len()));
        sheet.k = sheet.routes.len() as u16;
        sheet.kept = known.kept(sheet.k);
    }),
];

/// Changes that a sheet may or may not survive, of a sheet with routes.
pub const CHANGES: [(&str, Change); 17] = [
    ("a route less", |random, _, sheet| drop(sheet.routes.remove(random.below(sheet.routes.len())))),
    ("a route twice", |random, _, sheet| {
        let one = random.pick(&sheet.routes).clone();
        sheet.routes.insert(random.below(sheet.routes.len() + 1), one);
    }),
    ("33 routes or more", many),
    ("no route", |_, _, sheet| sheet.routes.clear()),
    ("cut short", shorter),
    ("a step out and back", detour),
    ("another relay", |random, known, sheet| {
        let other = any_number(random, known.net.n);
        *any_of(random, sheet, |route| &mut route.relays) = other;
    }),
    ("two relays exchanged", |random, _, sheet| exchanged(random, sheet, |route| &mut route.relays)),
    ("another link", |random, known, sheet| {
        let other = any_number(random, known.net.lows.len() as u16);
        *any_of(random, sheet, |route| &mut route.over) = other;
    }),
    ("two links exchanged", |random, _, sheet| exchanged(random, sheet, |route| &mut route.over)),
    ("a link less", |random, _, sheet| {
        let at = random.below(sheet.routes.len());
        if sheet.routes[at].over.len() > 1 {
            sheet.routes[at].over.pop();
        }
    }),
    ("a link more", |random, known, sheet| {
        let (at, link) = (random.below(sheet.routes.len()), any_number(random, known.net.lows.len() as u16));
        sheet.routes[at].over.push(link);
    }),
    ("another kept", |random, known, sheet| {
        let near =
            [sheet.kept + 1, sheet.kept.saturating_sub(1), known.kept(sheet.k + 1), known.net.lows.len() as u16, 9999, 10000];
        sheet.kept = *random.pick(&near);
    }),
    ("another k", |random, _, sheet| sheet.k = *random.pick(&[0, 33, 9999, 10000, 32, sheet.k.saturating_sub(1), sheet.k + 1])),
    ("k one off, with its kept", |random, known, sheet| {
        sheet.k = if sheet.k > 1 && random.once_in(2) { sheet.k - 1 } else { sheet.k + 1 };
        sheet.kept = known.kept(sheet.k);
    }),
    ("equal ends", |random, _, sheet| {
        if random.once_in(2) {
            sheet.from = sheet.to;
        } else {
            sheet.to = sheet.from;
        }
    }),
    ("other ends", |random, known, sheet| {
        let other = any_number(random, known.net.n);
        match random.below(3) {
            0 => sheet.from = other,
            1 => sheet.to = other,
            _ => std::mem::swap(&mut sheet.from, &mut sheet.to),
        }
    }),
];

/// A number below a bound, or one at it or beyond, at times with five digits.
fn any_number(random: &mut Random, bound: u16) -> u16 {
    if random.once_in(4) {
        return *random.pick(&[bound, bound + 1, 1000, 3000, 9999, 10000, 65535]);
    }
    random.below(usize::from(bound)) as u16
}

/// One number of a route's list.
fn any_of<'a>(random: &mut Random, sheet: &'a mut Sheet, list: fn(&mut Route) -> &mut Vec<u16>) -> &'a mut u16 {
    let at = random.below(sheet.routes.len());
    let list = list(&mut sheet.routes[at]);
    let at = random.below(list.len());
    &mut list[at]
}

/// Two numbers of two lists exchanged, at times of the same.
fn exchanged(random: &mut Random, sheet: &mut Sheet, list: fn(&mut Route) -> &mut Vec<u16>) {
    let (one, two) = (random.below(sheet.routes.len()), random.below(sheet.routes.len()));
    let two = if random.once_in(2) { one } else { two };
    let at = random.below(list(&mut sheet.routes[one]).len());
    let other = random.below(list(&mut sheet.routes[two]).len());
    let kept = list(&mut sheet.routes[one])[at];
    list(&mut sheet.routes[one])[at] = std::mem::replace(&mut list(&mut sheet.routes[two])[other], kept);
}

/// The shortest route so often that there are 33 routes or more, at times with a k to match.
fn many(random: &mut Random, _: Known, sheet: &mut Sheet) {
    let short = sheet.routes.iter().min_by_key(|route| route.relays.len()).expect("a route").clone();
    sheet.routes.resize(random.within(33, 40), short);
    if random.once_in(4) {
        sheet.k = *random.pick(&[32, sheet.routes.len() as u16]);
    }
}

/// A route without some relays at one end, with their links.
fn shorter(random: &mut Random, _: Known, sheet: &mut Sheet) {
    let at = random.below(sheet.routes.len());
    let Route { relays, over } = &mut sheet.routes[at];
    if relays.len() < 3 {
        return;
    }
    let less = if random.once_in(2) { 1 } else { random.within(1, relays.len() - 2) };
    if random.once_in(2) {
        relays.truncate(relays.len() - less);
        over.truncate(over.len().saturating_sub(less).max(1));
    } else {
        relays.drain(..less);
        over.drain(..less.min(over.len() - 1));
    }
}

/// A route that goes over a link to a neighbour and back.
fn detour(random: &mut Random, known: Known, sheet: &mut Sheet) {
    let at = random.below(sheet.routes.len());
    let Route { relays, over } = &mut sheet.routes[at];
    let at = random.below(relays.len());
    let (relay, Network { lows, highs, .. }) = (relays[at], known.net);
    let around: Vec<usize> = (0..lows.len()).filter(|&link| lows[link] == relay || highs[link] == relay).collect();
    if around.is_empty() || at > over.len() {
        return;
    }
    let link = *random.pick(&around);
    relays.splice(at..at, [relay, lows[link] ^ highs[link] ^ relay]);
    over.splice(at..at, [link as u16; 2]);
}
