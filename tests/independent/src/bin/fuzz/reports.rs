//! Link reports, in sets and in pairs, changed on and on.

use super::{Fuzz, LONGEST};
use independent::generate::scratch;
use independent::lengths::{any_length, mostly_enough};
use independent::manner;
use independent::random::Random;
use independent::reported::{both_ways, set};
use independent::reports::read_one;
use independent::sets::{LATER, any_report, sent, text};
use independent::spoilt_sets::{any_set, bad_line};
use independent::table::Network;

/// A set to begin with.
pub fn first_set(random: &mut Random, net: &Network) -> (u16, Vec<u8>) {
    (net.n, text(&sent(random, net).1))
}

/// Two reports to begin with, of one relay.
pub fn first_pair(random: &mut Random) -> [Vec<u8>; 2] {
    let mut report = any_report(random);
    let first = report.text().into_bytes();
    random.pick(&LATER).1(random, &mut report);
    [first, report.text().into_bytes()]
}

impl Fuzz {
    /// A kept set with some damage, at times with another n or the end of another kept one, or a new one.
    fn resent(&mut self) -> (u16, Vec<u8>) {
        let random = &mut self.random;
        let (mut n, mut set) = self.sets.pick(random).clone();
        if random.once_in(50) {
            let most = *random.pick(&[6, 60, 60, 60, 60, 1000]);
            (n, set) = any_set(random, most);
        }
        if random.once_in(10) {
            let (_, other) = self.sets.pick(random);
            let (here, there) = (random.below(set.len() + 1), random.below(other.len() + 1));
            set.splice(here.., other[there..].iter().copied());
        }
        if random.once_in(4) {
            n = *random.pick(&[0, 1, n.saturating_sub(1), n.saturating_add(1), 999, 1000, 1000, 1001]);
        }
        (0..random.below(4)).for_each(|_| scratch(random, &mut set));
        (n, set)
    }

    /// A set through `reports`.
    pub fn set(&mut self) {
        let (n, text) = self.resent();
        set(&mut self.random, &mut self.tally, n, &text, any_length);
        set(&mut self.random, &mut self.tally, n, &text, mostly_enough);
        self.tried[4] += 1;
        let manner = manner::sent(n, &text);
        let class = manner.class();
        if self.known.insert(manner) && text.len() <= LONGEST {
            self.sets.keep(class, (n, text));
        }
    }

    /// Two kept reports, one of them changed by what it says or by its bytes or put in the place of the other, both ways round.
    pub fn pair(&mut self) {
        let random = &mut self.random;
        let mut texts = self.pairs.pick(random).clone();
        let at = random.below(2);
        match (random.below(6), read_one(&texts[at])) {
            (0..=2, Ok(mut report)) => {
                random.pick(&LATER).1(random, &mut report);
                texts[at] = report.text().into_bytes();
            }
            (3, Ok(report)) => texts[at] = bad_line(random, &report).1,
            (4, _) => texts[at] = texts[1 - at].clone(),
            _ => (0..random.within(1, 2)).for_each(|_| scratch(random, &mut texts[at])),
        }
        let [first, second] = &texts;
        both_ways(&mut self.tally, first, second);
        self.tried[5] += 1;
        let manner = manner::paired(first, second);
        let class = manner.class();
        if self.known.insert(manner) && first.len() + second.len() <= LONGEST {
            self.pairs.keep(class, texts);
        }
    }
}
