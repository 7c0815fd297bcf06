//! Networks of the sizes at which a program takes other arrays or one word of bits more, with the highest counts there can be, and
//! with the most routes that Route gives.

use crate::generate::{Links, full, random_links, table, tree_from};
use crate::random::Random;
use crate::table::Network;

/// About a word of 64 relays and about arrays for 128, 512 and 1,000.
const RELAYS: [usize; 11] = [63, 64, 65, 127, 128, 129, 511, 512, 513, 999, 1000];

/// About arrays for 384 and 3,000 links.
const LINKS: [usize; 5] = [383, 384, 385, 2999, 3000];

/// About arrays for 32 relays and 96 links.
const FEW_RELAYS: [usize; 3] = [31, 32, 33];
const FEW_LINKS: [usize; 3] = [95, 96, 97];

/// The largest full network within 3,000 links: its last relay waits with 76 placed neighbours, and none waits with more.
const CORE: usize = 77;

/// Full networks whose last relay has 32 links, and one more.
const FULL: [usize; 2] = [33, 34];

/// So many links at random, or all there can be, with that of the highest pair number among them.
fn scattered(random: &mut Random, n: usize, m: usize) -> Network {
    let mut links = random_links(random, n, m.min(n * (n - 1) / 2));
    let highest = (n - 2, n - 1);
    if !links.contains(&highest) {
        links[0] = highest;
    }
    random.shuffle(&mut links);
    table(links, &Vec::from_iter(0..n))
}

/// A full network of 77 among n relays, alone or with a tree on it as far as the links go.
fn crowded(random: &mut Random, n: usize, tree: bool) -> Network {
    let mut names = Vec::from_iter(0..n);
    let mut links: Links = full(CORE).collect();
    if tree {
        links.extend(tree_from(random, CORE, n));
        links.truncate(3000);
    }
    random.shuffle(&mut names);
    random.shuffle(&mut links);
    table(links, &names)
}

/// Every one of them.
pub fn boundaries(random: &mut Random) -> Vec<Network> {
    let mut all = vec![crowded(random, CORE, false)];
    all.extend(FULL.map(|n| table(full(n).collect(), &Vec::from_iter(0..n))));
    for n in FEW_RELAYS {
        all.extend(FEW_LINKS.map(|m| scattered(random, n, m)));
    }
    for n in RELAYS {
        all.extend(LINKS.map(|m| scattered(random, n, m)));
        if n > CORE {
            all.extend([false, true].map(|tree| crowded(random, n, tree)));
        }
    }
    all
}

/// The same network with the relays about the ends of the first word of 64 withdrawn: 0, 63, 64 and the last.
pub fn withdrawn(net: &Network) -> Network {
    let mut net = net.clone();
    let last = net.states.len() - 1;
    [0, 63, 64, last].into_iter().filter(|&relay| relay <= last).for_each(|relay| net.states[relay] = 0);
    net
}
