//! Document 02, #103: a sheet's text read by its form, and whether the sheet holds for a network.

use crate::forests::{keeps, numbers};
use crate::sheet::{Route, Sheet};
use crate::table::{Network, Refusal, check, plain};
use crate::text::form;

/// What makes a sheet a no.
#[derive(Clone, Copy, Debug, PartialEq, Eq, PartialOrd, Ord, Hash)]
pub enum Fault {
    /// Another number of routes than k.
    Routes,
    /// `from` and `to` are equal.
    SameEnds,
    /// A relay is not below n.
    NoRelay,
    /// A relay is withdrawn (#105).
    Withdrawn,
    /// A route starts or ends elsewhere.
    Ends,
    /// A relay stands twice in a route.
    Twice,
    /// A route has another number of links than of steps.
    Count,
    /// A link is not below m, or does not join the two relays of its step.
    Link,
    /// Two routes have an inner relay in common.
    SharedRelay,
    /// Two routes have a link in common.
    SharedLink,
    /// `kept` is not the cut's count.
    Kept,
}

/// What was read and the offset behind it, or the offset of the first byte that departs.
type Read<T> = Result<(T, usize), usize>;

/// A line of numbers: its front with those that it must have, any more of them, each behind a space, and its end. Space and bracket
/// are both due behind a number.
fn list(text: &[u8], start: usize, front: &str) -> Read<Vec<u16>> {
    let (mut numbers, mut at) = form(text, start, front)?;
    loop {
        match (form(text, at, ")\n"), form(text, at, " #")) {
            (Ok((_, next)), _) => return Ok((numbers, next)),
            (_, Ok((one, next))) => {
                numbers.extend(one);
                at = next;
            }
            (Err(end), Err(more)) => return Err(end.max(more)),
        }
    }
}

fn route(text: &[u8], start: usize) -> Read<Route> {
    let (relays, at) = list(text, start, "(route # #")?;
    let (over, at) = list(text, at, "(over #")?;
    Ok((Route { relays, over }, at))
}

/// The sheet of a text, or the offset at which the text departs from the form. A route and `kept` are due at once: where a text
/// follows neither of them, it departs at the later of the two offsets.
pub fn read(text: &[u8]) -> Result<Sheet, usize> {
    let (wish, mut at) = form(text, 0, "(sheet (from #) (to #) (k #))\n")?;
    let mut routes = vec![];
    let kept = loop {
        match (route(text, at), form(text, at, "(kept #)\n")) {
            (Ok((route, next)), _) => {
                routes.push(route);
                at = next;
            }
            (_, Ok((kept, next))) => {
                at = next;
                break kept[0];
            }
            (Err(of_route), Err(of_kept)) => return Err(of_route.max(of_kept)),
        }
    };
    let (_, end) = form(text, at, "(end)\n")?;
    if end < text.len() { Err(end) } else { Ok(Sheet { from: wish[0], to: wish[1], k: wish[2], routes, kept }) }
}

/// The faults among these that are there.
fn those<const N: usize>(faults: [(Fault, bool); N]) -> Vec<Fault> {
    faults.into_iter().filter(|fault| fault.1).map(|fault| fault.0).collect()
}

/// The faults of one route.
fn alone(net: &Network, sheet: &Sheet, route: &Route) -> Vec<Fault> {
    let Route { relays, over } = route;
    let last = relays.len() - 1;
    let joined = |two: &[u16], link: u16| {
        let ends = (net.lows.get(usize::from(link)), net.highs.get(usize::from(link)));
        ends == (Some(&two[0]), Some(&two[1])) || ends == (Some(&two[1]), Some(&two[0]))
    };
    those([
        (Fault::NoRelay, relays.iter().any(|&relay| relay >= net.n)),
        (Fault::Withdrawn, relays.iter().any(|&relay| relay < net.n && !net.serves(relay))),
        (Fault::Ends, (relays[0], relays[last]) != (sheet.from, sheet.to)),
        (Fault::Twice, (0..last).any(|at| relays[at + 1..].contains(&relays[at]))),
        (Fault::Count, over.len() != last),
        (Fault::Link, !relays.windows(2).zip(over).all(|(two, &link)| joined(two, link))),
    ])
}

/// The faults of one route beside another.
fn beside(one: &Route, other: &Route) -> Vec<Fault> {
    fn inner(route: &Route) -> &[u16] {
        &route.relays[1..route.relays.len() - 1]
    }
    those([
        (Fault::SharedRelay, inner(one).iter().any(|relay| inner(other).contains(relay))),
        (Fault::SharedLink, one.over.iter().any(|link| other.over.contains(link))),
    ])
}

/// Every kind of fault that a sheet has, once; but `kept` is looked at only where there is no other.
pub fn faults(net: &Network, sheet: &Sheet) -> Vec<Fault> {
    let Sheet { from, to, k, routes, kept } = sheet;
    let mut faults = those([(Fault::Routes, routes.len() != usize::from(*k)), (Fault::SameEnds, from == to)]);
    for (at, route) in routes.iter().enumerate() {
        let mut more = alone(net, sheet, route);
        more.extend(routes[..at].iter().flat_map(|other| beside(route, other)));
        more.into_iter().for_each(|fault| {
            if !faults.contains(&fault) {
                faults.push(fault);
            }
        });
    }
    if faults.is_empty() {
        let count = numbers(net).into_iter().filter(|&forest| keeps(*k, forest)).count();
        faults = those([(Fault::Kept, count != usize::from(*kept))]);
    }
    faults
}

/// A sheet read back: its faults, and none is a yes.
pub fn verify(net: &Network, text: &[u8]) -> Result<Vec<Fault>, Refusal> {
    check(net)?;
    let sheet = read(text).map_err(|place| Refusal { number: 14, place })?;
    if sheet.k < 1 || sheet.k > 32 {
        return plain(15);
    }
    Ok(faults(net, &sheet))
}
