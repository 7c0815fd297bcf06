//! Networks, refusals, the pair number and the table check.

use std::collections::HashSet;

/// A table with its number of relays and the state of each: 1 in service, 0 withdrawn (document 02, #105).
#[derive(Clone, Debug, PartialEq, Eq)]
pub struct Network {
    pub n: u16,
    pub lows: Vec<u16>,
    pub highs: Vec<u16>,
    pub states: Vec<u16>,
}

impl Network {
    /// A table with all its relays in service.
    pub fn serving(n: u16, lows: Vec<u16>, highs: Vec<u16>) -> Network {
        Network { n, lows, highs, states: vec![1; usize::from(n)] }
    }

    /// The two ends of each link.
    pub fn links(&self) -> impl Iterator<Item = (u16, u16)> {
        self.lows.iter().copied().zip(self.highs.iter().copied())
    }

    /// Whether a relay of an accepted network is in service.
    pub fn serves(&self, relay: u16) -> bool {
        self.states[usize::from(relay)] == 1
    }

    /// Whether both ends of a link of an accepted network are in service.
    pub fn whole(&self, link: usize) -> bool {
        self.serves(self.lows[link]) && self.serves(self.highs[link])
    }

    /// The relays in service of an accepted network.
    pub fn in_service(&self) -> Vec<u16> {
        (0..self.n).filter(|&relay| self.serves(relay)).collect()
    }
}

/// A refusal's number and its place in the input.
#[derive(Clone, Copy, Debug, PartialEq, Eq)]
pub struct Refusal {
    pub number: u32,
    pub place: usize,
}

impl Refusal {
    /// The line that a program prints for it.
    pub fn line(&self) -> String {
        let Refusal { number, place } = self;
        format!("(refused {number} {place})\n")
    }
}

/// A refusal whose place is 0.
pub fn plain<T>(number: u32) -> Result<T, Refusal> {
    Err(Refusal { number, place: 0 })
}

/// A refusal at a place.
pub fn refuse<T>(number: u32, place: usize) -> Result<T, Refusal> {
    Err(Refusal { number, place })
}

/// Refusal 9: k outside 1 to 32.
pub fn known(k: u16) -> Result<(), Refusal> {
    if k == 0 || k > 32 { plain(9) } else { Ok(()) }
}

/// Refusal 12: a lent list shorter than what it is to hold.
pub fn room<T>(list: &[T], needed: usize) -> Result<(), Refusal> {
    if list.len() < needed { plain(12) } else { Ok(()) }
}

/// B × (B − 1) / 2 + A
pub fn pair(a: u16, b: u16) -> Result<u64, Refusal> {
    if a >= 1000 || b >= 1000 {
        return plain(5);
    }
    if a >= b {
        return plain(6);
    }
    let (a, b) = (u64::from(a), u64::from(b));
    Ok(b * (b - 1) / 2 + a)
}

/// The links of a table, and the refusals 5, 6 and 7 of one more.
pub struct Seen {
    n: u16,
    pairs: HashSet<(u16, u16)>,
}

impl Seen {
    pub fn new(n: u16) -> Seen {
        Seen { n, pairs: HashSet::new() }
    }

    /// Takes the link at this index, or says why not.
    pub fn take(&mut self, index: usize, a: u16, b: u16) -> Result<(), Refusal> {
        if a >= self.n || b >= self.n {
            return refuse(5, index);
        }
        if a >= b {
            return refuse(6, index);
        }
        if !self.pairs.insert((a, b)) {
            return refuse(7, index);
        }
        Ok(())
    }
}

/// The table check.
pub fn check(net: &Network) -> Result<(), Refusal> {
    let Network { n, lows, highs, states } = net;
    if *n == 0 || *n > 1000 {
        return plain(3);
    }
    if lows.len() != highs.len() || lows.len() > 3000 {
        return plain(4);
    }
    let mut seen = Seen::new(*n);
    for (index, (a, b)) in net.links().enumerate() {
        seen.take(index, a, b)?;
    }
    if states.len() != usize::from(*n) || states.iter().any(|&state| state != 0 && state != 1) {
        return plain(16);
    }
    Ok(())
}
