//! The order, the forests and the cut, in the paper's words. A withdrawn relay has no place, and its links belong to no forest
//! (document 02, #105).

use crate::table::{Network, Refusal, check, known, room};

/// How many links with both ends in service each relay of an accepted network has.
pub fn links(net: &Network) -> Vec<u32> {
    let mut links = vec![0; usize::from(net.n)];
    for link in (0..net.lows.len()).filter(|&link| net.whole(link)) {
        links[usize::from(net.lows[link])] += 1;
        links[usize::from(net.highs[link])] += 1;
    }
    links
}

/// The order of an accepted network: the relay at place p stands at index p − 1. First the one with the most links (document 02,
/// #104), then always the one with the most to placed relays, of equals the lowest number.
pub fn ordering(net: &Network) -> Vec<u16> {
    let mut order: Vec<u16> = Vec::new();
    let mut left = net.in_service();
    let links = links(net);
    let mut to_placed = vec![0u32; usize::from(net.n)];
    while !left.is_empty() {
        let most = if order.is_empty() { &links } else { &to_placed };
        let mut best = 0;
        for (at, &relay) in left.iter().enumerate() {
            if most[usize::from(relay)] > most[usize::from(left[best])] {
                best = at;
            }
        }
        let next = left.remove(best);
        order.push(next);
        for (a, b) in net.links() {
            if a == next {
                to_placed[usize::from(b)] += 1;
            } else if b == next {
                to_placed[usize::from(a)] += 1;
            }
        }
    }
    order
}

/// The place of each of n relays, from 1, or 0 for one that is not in the order.
pub fn places(n: u16, order: &[u16]) -> Vec<u16> {
    let mut places = vec![0; usize::from(n)];
    for (index, &relay) in order.iter().enumerate() {
        places[usize::from(relay)] = index as u16 + 1;
    }
    places
}

/// For each place the earlier neighbours' places with their links' indices, in rising place; index 0 is unused.
pub fn earlier(net: &Network, places: &[u16]) -> Vec<Vec<(u16, usize)>> {
    let mut earlier = vec![Vec::new(); usize::from(net.n) + 1];
    for link in (0..net.lows.len()).filter(|&link| net.whole(link)) {
        let (a, b) = (places[usize::from(net.lows[link])], places[usize::from(net.highs[link])]);
        earlier[usize::from(a.max(b))].push((a.min(b), link));
    }
    for list in &mut earlier {
        list.sort();
    }
    earlier
}

/// The forest of each link of an accepted network, 0 for a link with a withdrawn end.
pub fn numbers(net: &Network) -> Vec<u16> {
    let mut forests = vec![0; net.lows.len()];
    for list in earlier(net, &places(net.n, &ordering(net))) {
        for (index, &(_, link)) in list.iter().enumerate() {
            forests[link] = index as u16 + 1;
        }
    }
    forests
}

/// Whether a cut down to k keeps the links of a forest.
pub fn keeps(k: u16, forest: u16) -> bool {
    (1..=k).contains(&forest)
}

/// Order.
pub fn order(net: &Network, relays: &mut [u16], places: &mut [u16]) -> Result<(), Refusal> {
    check(net)?;
    let count = usize::from(net.n);
    room(relays, count)?;
    room(places, count)?;
    let order = ordering(net);
    relays[..order.len()].copy_from_slice(&order);
    places[..count].copy_from_slice(&self::places(net.n, &order));
    Ok(())
}

/// Split: the highest forest used.
pub fn split(net: &Network, forests: &mut [u16]) -> Result<u16, Refusal> {
    check(net)?;
    room(forests, net.lows.len())?;
    let numbers = numbers(net);
    forests[..net.lows.len()].copy_from_slice(&numbers);
    Ok(numbers.iter().copied().max().unwrap_or(0))
}

/// Cut: the count of ones.
pub fn cut(net: &Network, k: u16, marks: &mut [u16]) -> Result<u16, Refusal> {
    check(net)?;
    known(k)?;
    room(marks, net.lows.len())?;
    let mut kept = 0;
    for (mark, forest) in marks.iter_mut().zip(numbers(net)) {
        *mark = u16::from(keeps(k, forest));
        kept += *mark;
    }
    Ok(kept)
}
