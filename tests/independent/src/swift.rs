//! The same results by the methods of an ordinary program that is to be fast: what the proved code is timed against.

use crate::sweep::{Wish, sweep};
use crate::table::{Network, Refusal, known, plain, refuse, room};

/// No pair of n relays is marked yet: a bit for each pair number.
pub fn no_pairs(n: u16) -> Vec<u64> {
    vec![0; usize::from(n) * usize::from(n) / 128 + 1]
}

/// The table check with a bitmap of pair numbers.
pub fn check(net: &Network) -> Result<(), Refusal> {
    let Network { n, lows, highs, states } = net;
    if *n == 0 || *n > 1000 {
        return plain(3);
    }
    if lows.len() != highs.len() || lows.len() > 3000 {
        return plain(4);
    }
    let mut seen = no_pairs(*n);
    for (index, (&a, &b)) in lows.iter().zip(highs).enumerate() {
        link(*n, &mut seen, index, a, b)?;
    }
    let highest = states.iter().copied().fold(0, u16::max);
    if states.len() != usize::from(*n) || highest > 1 { plain(16) } else { Ok(()) }
}

#[inline]
pub fn link(n: u16, seen: &mut [u64], index: usize, a: u16, b: u16) -> Result<(), Refusal> {
    if a >= n || b >= n {
        return refuse(5, index);
    }
    if a >= b {
        return refuse(6, index);
    }
    let (a, b) = (u32::from(a), u32::from(b));
    let pair = b * (b - 1) / 2 + a;
    let (word, bit) = (&mut seen[(pair / 64) as usize], 1 << (pair % 64));
    if *word & bit != 0 {
        return refuse(7, index);
    }
    *word |= bit;
    Ok(())
}

/// Who is placed next: the waiting relay with the greatest key, which is its count of placed neighbours first and then the lower
/// relay number.
pub trait Keys {
    /// All relays in service wait but the one that is placed first.
    fn new(states: &[u16], first: usize) -> Self;
    /// Takes the relay with the greatest key out.
    fn take(&mut self) -> usize;
    /// One more placed neighbour: the count so far, or 0 for a placed relay.
    fn raise(&mut self, relay: usize) -> u16;
}

/// One array of keys, 0 once placed and where withdrawn, gone through for each place.
pub struct Plain {
    keys: [u32; 1024],
    n: usize,
}

impl Keys for Plain {
    fn new(states: &[u16], first: usize) -> Plain {
        let mut keys = [0; 1024];
        for (relay, (key, &state)) in keys.iter_mut().zip(states).enumerate() {
            *key = u32::from(state) * (1024 + (1023 - relay as u32));
        }
        keys[first] = 0;
        Plain { keys, n: states.len() }
    }

    fn take(&mut self) -> usize {
        let best = self.keys[..self.n].iter().copied().fold(0, u32::max);
        let relay = 1023 - (best & 1023) as usize;
        self.keys[relay] = 0;
        relay
    }

    fn raise(&mut self, relay: usize) -> u16 {
        let key = &mut self.keys[relay];
        if *key == 0 {
            return 0;
        }
        *key += 1024;
        ((*key >> 10) - 1) as u16
    }
}

/// The waiting relays by their count, as bits: each 64 relays have a column with a word for each count, and a relay's bit is set in
/// the word of its count until it is placed. No relay waits with more than 76 placed neighbours, since 77 take 3,003 links.
pub struct Buckets {
    columns: Vec<[u64; 80]>,
    counts: [u8; 1000],
    /// No relay waits with a greater count.
    most: usize,
}

impl Keys for Buckets {
    fn new(states: &[u16], first: usize) -> Buckets {
        let mut columns = vec![[0; 80]; states.len().div_ceil(64)];
        for (column, states) in columns.iter_mut().zip(states.chunks(64)) {
            column[0] = states.iter().rev().fold(0, |word, &state| word << 1 | u64::from(state));
        }
        columns[first / 64][0] ^= 1 << (first % 64);
        Buckets { columns, counts: [0; 1000], most: 0 }
    }

    fn take(&mut self) -> usize {
        loop {
            let words = self.columns.iter_mut().map(|column| &mut column[self.most]);
            if let Some((index, word)) = words.enumerate().find(|(_, word)| **word != 0) {
                let bit = word.trailing_zeros();
                *word &= *word - 1;
                return 64 * index + bit as usize;
            }
            self.most -= 1;
        }
    }

    fn raise(&mut self, relay: usize) -> u16 {
        let (column, bit) = (&mut self.columns[relay / 64], 1 << (relay % 64));
        let count = usize::from(self.counts[relay]);
        if column[count] & bit == 0 {
            return 0;
        }
        column[count] ^= bit;
        column[count + 1] |= bit;
        self.counts[relay] += 1;
        self.most = self.most.max(count + 1);
        count as u16 + 1
    }
}

/// Order, places and forest numbers in one pass over chains of links with both ends in service, from the relay with the longest chain
/// on. Gives how many relays are in service.
pub fn scan_by<K: Keys>(net: &Network, relays: &mut [u16], places: &mut [u16], forests: &mut [u16]) -> usize {
    const NONE: u16 = u16::MAX;
    let Network { lows, highs, states, .. } = net;
    let mut first = [NONE; 1000];
    let mut next = [[NONE; 2]; 3000];
    let mut links = [0u16; 1000];
    for link in (0..lows.len()).rev() {
        if states[usize::from(lows[link])] & states[usize::from(highs[link])] == 0 {
            forests[link] = 0;
            continue;
        }
        for (side, relay) in [lows[link], highs[link]].into_iter().enumerate() {
            next[link][side] = first[usize::from(relay)];
            first[usize::from(relay)] = link as u16;
            links[usize::from(relay)] += 1;
        }
    }
    places[..states.len()].fill(0);
    let size = states.iter().filter(|&&state| state == 1).count();
    let most = links[..states.len()].iter().copied().fold(0, u16::max);
    let busiest = states.iter().zip(&links).position(|(&state, &count)| state == 1 && count == most);
    let Some(start) = busiest else { return 0 };
    let mut keys = K::new(states, start);
    for (step, at_step) in relays[..size].iter_mut().enumerate() {
        let relay = if step == 0 { start } else { keys.take() };
        *at_step = relay as u16;
        places[relay] = step as u16 + 1;
        let mut at = first[relay];
        while at != NONE {
            let link = usize::from(at);
            let side = usize::from(usize::from(lows[link]) != relay);
            let other = usize::from(if side == 0 { highs[link] } else { lows[link] });
            let forest = keys.raise(other);
            if forest != 0 {
                forests[link] = forest;
            }
            at = next[link][side];
        }
    }
    size
}

/// The scan that the proved code makes, too.
pub fn scan(net: &Network, relays: &mut [u16], places: &mut [u16], forests: &mut [u16]) -> usize {
    scan_by::<Plain>(net, relays, places, forests)
}

/// Order, over keys of one kind.
pub fn order_by<K: Keys>(net: &Network, relays: &mut [u16], places: &mut [u16]) -> Result<(), Refusal> {
    check(net)?;
    room(relays, usize::from(net.n))?;
    room(places, usize::from(net.n))?;
    scan_by::<K>(net, relays, places, &mut [0; 3000]);
    Ok(())
}

/// Split.
pub fn split(net: &Network, forests: &mut [u16]) -> Result<u16, Refusal> {
    check(net)?;
    room(forests, net.lows.len())?;
    scan(net, &mut [0; 1000], &mut [0; 1000], forests);
    Ok(forests[..net.lows.len()].iter().copied().max().unwrap_or(0))
}

/// Cut.
pub fn cut(net: &Network, k: u16, marks: &mut [u16]) -> Result<u16, Refusal> {
    check(net)?;
    known(k)?;
    room(marks, net.lows.len())?;
    scan(net, &mut [0; 1000], &mut [0; 1000], marks);
    let mut kept = 0;
    for mark in &mut marks[..net.lows.len()] {
        *mark = u16::from(mark.wrapping_sub(1) < k);
        kept += *mark;
    }
    Ok(kept)
}

/// An accepted network with its order and the forest of each link.
struct Scanned<'a> {
    net: &'a Network,
    relays: [u16; 1000],
    places: [u16; 1000],
    forests: [u16; 3000],
}

impl Scanned<'_> {
    fn new(net: &Network) -> Scanned<'_> {
        let (mut relays, mut places, mut forests) = ([0; 1000], [0; 1000], [0; 3000]);
        scan(net, &mut relays, &mut places, &mut forests);
        Scanned { net, relays, places, forests }
    }

    /// A row of n entries for each of the forests up to k: at the later place of a link what is given of its index and its earlier
    /// place, 0 elsewhere.
    fn rows(&self, k: u16, entry: impl Fn(usize, u16) -> u16) -> Vec<u16> {
        let size = usize::from(self.net.n);
        let mut rows = vec![0; usize::from(k) * size];
        for (link, ((a, b), &forest)) in self.net.links().zip(&self.forests).enumerate() {
            if forest.wrapping_sub(1) < k {
                let (a, b) = (self.places[usize::from(a)], self.places[usize::from(b)]);
                rows[(usize::from(forest) - 1) * size + usize::from(a.max(b)) - 1] = entry(link, a.min(b));
            }
        }
        rows
    }

    /// The routes in places, one after another, over the rows of earlier places: the sweep over whole paths.
    fn routes(&self, rows: &[u16], wish: Wish) -> Option<Vec<Vec<u16>>> {
        let (size, most) = (usize::from(self.net.n), usize::from(wish.k));
        let left = |i: usize, v: u16| Some(rows[(i - 1) * size + usize::from(v) - 1]).filter(|&place| place > 0);
        let (p, q) = (self.places[usize::from(wish.from)], self.places[usize::from(wish.to)]);
        let (s, t) = (p.max(q), p.min(q));
        if (t + 1..=s).any(|v| left(most, v).is_none()) {
            return None;
        }
        let mut routes = Vec::with_capacity(most);
        for (mut route, b) in sweep(most, s, t, &left).into_iter().skip(1) {
            route.extend(b.into_iter().rev().skip(1));
            if p == t {
                route.reverse();
            }
            routes.push(route);
        }
        Some(routes)
    }

    /// Turns places into relay numbers.
    fn name(&self, route: &mut [u16]) {
        for relay in route {
            *relay = self.relays[usize::from(*relay) - 1];
        }
    }
}

/// The routes of an accepted network, one after another.
pub fn routes(net: &Network, wish: Wish) -> Option<Vec<Vec<u16>>> {
    let scanned = Scanned::new(net);
    let mut routes = scanned.routes(&scanned.rows(wish.k, |_, earlier| earlier), wish)?;
    routes.iter_mut().for_each(|route| scanned.name(route));
    Some(routes)
}

/// The same with the links of each route: at each step the one that stands where the later place has the earlier one.
pub fn routes_with_links(net: &Network, wish: Wish) -> Option<Vec<(Vec<u16>, Vec<u16>)>> {
    let scanned = Scanned::new(net);
    let rows = scanned.rows(wish.k, |_, earlier| earlier);
    let links = scanned.rows(wish.k, |link, _| link as u16);
    let link = |two: &[u16]| {
        let (earlier, later) = (two[0].min(two[1]), usize::from(two[0].max(two[1])));
        let mut column = (later - 1..rows.len()).step_by(usize::from(net.n));
        links[column.find(|&at| rows[at] == earlier).expect("a route runs along kept links")]
    };
    let with_links = |mut route: Vec<u16>| {
        let over = route.windows(2).map(link).collect();
        scanned.name(&mut route);
        (route, over)
    };
    Some(scanned.routes(&rows, wish)?.into_iter().map(with_links).collect())
}
