//! Document 02, #101: the links of a route, looked up in the table pair by pair, and Route with links.

use crate::sweep::{Wish, asked, route};
use crate::table::{Network, Refusal, room};

/// The index of the link between two relays.
fn link(net: &Network, one: u16, two: u16) -> u16 {
    let pair = (one.min(two), one.max(two));
    net.links().position(|link| link == pair).expect("each relay is linked to the next") as u16
}

/// The indices of a route's links in turn, one fewer than its relays.
pub fn over(net: &Network, route: &[u16]) -> Vec<u16> {
    route.windows(2).map(|two| link(net, two[0], two[1])).collect()
}

/// What Route with links is lent.
#[derive(Clone, Debug, PartialEq, Eq)]
pub struct Lent {
    pub counts: Vec<u16>,
    pub relays: Vec<u16>,
    pub links: Vec<u16>,
    pub scratch: Vec<u16>,
}

/// Route with links: the count of relays written.
pub fn route_links(net: &Network, wish: Wish, lent: &mut Lent) -> Result<u16, Refusal> {
    let Lent { counts, relays, links, scratch } = lent;
    asked(net, wish)?;
    let k = usize::from(wish.k);
    room(links, usize::from(net.n) - 2 + k)?;
    let written = route(net, wish, counts, relays, scratch)?;
    let (mut rest, mut all) = (&relays[..], vec![]);
    for &count in &counts[..k] {
        let (route, behind) = rest.split_at(usize::from(count));
        all.extend(over(net, route));
        rest = behind;
    }
    links[..all.len()].copy_from_slice(&all);
    Ok(written)
}
