//! The states of relays (document 02, #105): seeded lists of them, such as the table check refuses too, and the kinds of lists that
//! must come up.

use crate::random::Random;
use crate::table::{Network, Refusal, check};
use crate::text::{HEADER, form};
use std::collections::HashSet;

/// Withdraws relays of a network: half of the time none, else a few, many, those without links, all, or all but one.
pub fn withdraw(random: &mut Random, net: &mut Network) {
    let n = usize::from(net.n);
    let few = if random.once_in(4) { 1 } else { random.within(1, n.min(6)) };
    match random.below(16) {
        0..=2 => (0..few).for_each(|_| net.states[random.below(n)] = 0),
        3 => [0, n - 1].into_iter().for_each(|relay| net.states[relay] = 0),
        4 => busiest(net).into_iter().for_each(|relay| net.states[relay] = 0),
        5 if random.once_in(3) => {
            let linked: HashSet<u16> = net.lows.iter().chain(&net.highs).copied().collect();
            (0..net.n).filter(|relay| !linked.contains(relay)).for_each(|relay| net.states[usize::from(relay)] = 0);
        }
        5 => net.states.iter_mut().for_each(|state| *state = u16::from(!random.once_in(4))),
        6 => net.states.iter_mut().for_each(|state| *state = u16::from(random.once_in(3))),
        7 if random.once_in(2) => net.states.fill(0),
        7 => {
            net.states.fill(0);
            net.states[random.below(n)] = 1;
        }
        _ => {}
    }
}

/// The lowest of the relays with the most links of all, those at withdrawn relays too; none without links.
fn busiest(net: &Network) -> Option<usize> {
    let mut counts = vec![0; usize::from(net.n)];
    net.lows.iter().chain(&net.highs).for_each(|&relay| counts[usize::from(relay)] += 1);
    let most = *counts.iter().max()?;
    counts.iter().position(|&count| count == most).filter(|_| most > 0)
}

/// Spoils a state list: another length, or an entry other than 0 and 1, some with a last byte of 0 or 1.
pub fn spoil(random: &mut Random, states: &mut Vec<u16>) {
    let any = random.below(states.len());
    let at = *random.pick(&[0, states.len().saturating_sub(1), any]);
    match random.below(7) {
        0 => drop(states.pop()),
        1 => states.clear(),
        2 => states.push(random.below(2) as u16),
        3 => states.resize(*random.pick(&[1000, 1001, 1024, 3000]), 1),
        _ if states.is_empty() => states.push(1),
        4 => states[at] = 2,
        5 => states[at] = 65535,
        _ => states[at] = *random.pick(&[3, 255, 256, 257, 32768, 65534]),
    }
}

type Kind = (&'static str, fn(&Network) -> bool);

/// Kinds of lists of accepted networks.
pub const GOOD: [Kind; 11] = [
    ("all in service", |net| withdrawn(net) == 0),
    ("one withdrawn", |net| withdrawn(net) == 1),
    ("some withdrawn, most in service", |net| withdrawn(net) > 1 && 2 * withdrawn(net) < net.states.len()),
    ("most withdrawn, some in service", |net| 2 * withdrawn(net) >= net.states.len() && withdrawn(net) + 1 < net.states.len()),
    ("one in service of several", |net| net.states.len() > 1 && withdrawn(net) + 1 == net.states.len()),
    ("all withdrawn", |net| withdrawn(net) == net.states.len()),
    ("relay 0 withdrawn", |net| net.states[0] == 0),
    ("the last relay withdrawn", |net| net.states[net.states.len() - 1] == 0),
    ("the relay with the most links withdrawn", |net| busiest(net).is_some_and(|relay| net.states[relay] == 0)),
    ("links, and each has a withdrawn end", |net| !net.lows.is_empty() && links(net) == 0),
    ("links, and withdrawn relays that have none", |net| {
        !net.lows.is_empty() && links(net) == net.lows.len() && withdrawn(net) > 0
    }),
];

/// Kinds of lists for which alone a network is refused.
pub const BAD: [Kind; 6] = [
    ("no entry", |net| net.states.is_empty()),
    ("an entry too few", |net| net.states.len() + 1 == usize::from(net.n)),
    ("more entries than relays", |net| net.states.len() > usize::from(net.n)),
    ("an entry 2", |net| net.states.contains(&2)),
    ("an entry 65535", |net| net.states.contains(&65535)),
    ("another entry that is no state", |net| net.states.iter().any(|state| (3..65535).contains(state))),
];

/// How many relays are withdrawn.
fn withdrawn(net: &Network) -> usize {
    net.states.iter().filter(|&&state| state == 0).count()
}

/// How many links have both ends in service.
fn links(net: &Network) -> usize {
    (0..net.lows.len()).filter(|&link| net.whole(link)).count()
}

/// The kinds that the list of a network is of.
pub fn kinds(net: &Network) -> Vec<&'static str> {
    let kinds = match check(net) {
        Ok(()) => &GOOD[..],
        Err(Refusal { number: 16, .. }) => &BAD,
        Err(_) => &[],
    };
    kinds.iter().filter(|kind| kind.1(net)).map(|kind| kind.0).collect()
}

/// Kinds of state lists that Read is lent for a text whose first line is good, the table lists being long enough.
pub const LENT: [&str; 3] = ["lent to Read, too short", "lent to Read, just long enough", "lent to Read, longer"];

/// The kind of a list of so many states, beside table lists of so many entries.
pub fn lent(text: &[u8], entries: usize, states: usize) -> Option<&'static str> {
    let (header, _) = form(text, 0, HEADER).ok()?;
    let (n, m) = (usize::from(header[0]), usize::from(header[1]));
    let good = (1..=1000).contains(&n) && m <= 3000 && m <= entries;
    good.then(|| LENT[1 + usize::from(states > n) - usize::from(states < n)])
}
