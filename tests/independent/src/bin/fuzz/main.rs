//! Changes texts, tables, sheets, drawings and link reports for a time, keeps those that are answered in a new manner and changes them
//! on, and compares the proved library with the second version on each: Read, the planner and the keeper on texts, every operation on
//! tables, sheets read back with their tables, the import on drawings, reports in sets and in pairs.
//! fuzz [SECONDS [SEED]]: 60 seconds and seed 1 if not given. The same seed tries the same inputs in the same order.

mod kept;
mod reports;

use independent::against::operations;
use independent::drawings::{self, drawn};
use independent::forests::numbers;
use independent::generate::{alter, any, damage, mend, scratch};
use independent::imported::import;
use independent::lengths::{any_length, mostly_enough};
use independent::manner::{self, Lefts, Manner};
use independent::outs::{OUTS, with_outs};
use independent::printed::{KEEP, PLAN, keep_input, printed};
use independent::random::Random;
use independent::sheets::{CHANGES, Known, STILL, crossing, direct_twice, flowing, formerly, there_and_back};
use independent::spoilt::ways;
use independent::table::Network;
use independent::tally::Tally;
use independent::texts::{input, read};
use independent::verified::verified;
use independent::verify;
use independent::wishes::{any_wish, line, wish};
use kept::Kept;
use std::collections::HashSet;
use std::time::{Duration, Instant};

/// The longest text that is kept, the most relays and links of a table that is, and how many of each there are at the start.
const LONGEST: usize = 3000;
const RELAYS: u16 = 100;
const LINKS: usize = 250;
const FIRST: usize = 40;

struct Fuzz {
    random: Random,
    tally: Tally,
    /// By the number that the planner prints for them.
    texts: Kept<Vec<u8>>,
    /// By how many ends one exchange of their sweep replaces.
    nets: Kept<Network>,
    /// By what is said of them, each with its table.
    sheets: Kept<(Network, Vec<u8>)>,
    /// By the number that the import refuses them with.
    drawings: Kept<Vec<u8>>,
    /// By the number that they are refused with, each with its n.
    sets: Kept<(u16, Vec<u8>)>,
    /// By the one that stands or the refusal.
    pairs: Kept<[Vec<u8>; 2]>,
    known: HashSet<Manner>,
    tried: [u64; 6],
}

/// A sheet of a network to begin with, without a route where none is found.
fn first_sheet(random: &mut Random, net: &Network) -> Vec<u8> {
    let make = *random.pick(&[flowing, formerly, crossing, direct_twice, there_and_back]);
    let sheet = make(random, Known { net, numbers: &numbers(net) });
    sheet.map_or("(sheet (from 0) (to 1) (k 1))\n(kept 0)\n(end)\n".into(), |sheet| sheet.text()).into_bytes()
}

/// A text with one to four changes, at times with the end of another kept one, and half the time mended.
fn damaged(random: &mut Random, kept: &Kept<Vec<u8>>, mut text: Vec<u8>, mend: fn(&mut Vec<u8>)) -> Vec<u8> {
    let changes = if random.once_in(2) { 1 } else { random.within(2, 4) };
    (0..changes).for_each(|_| scratch(random, &mut text));
    if random.once_in(10) {
        let other = kept.pick(random);
        let (here, there) = (random.below(text.len() + 1), random.below(other.len() + 1));
        text.splice(here.., other[there..].iter().copied());
    }
    if random.once_in(2) {
        mend(&mut text);
    }
    text
}

impl Fuzz {
    fn new(seed: u64) -> Fuzz {
        let mut random = Random::new(seed);
        let (mut texts, mut drawings) = (Kept::new(), Kept::new());
        let (mut nets, mut sheets) = (Kept::new(), Kept::new());
        let (mut sets, mut pairs) = (Kept::new(), Kept::new());
        for _ in 0..FIRST {
            let net = any(&mut random, 60);
            let wish = any_wish(&mut random, &net);
            texts.keep(0, input(&net, wish).0);
            sheets.keep(0, (net.clone(), first_sheet(&mut random, &net)));
            drawings.keep(0, drawn(&mut random, &net).1.concat());
            sets.keep(0, reports::first_set(&mut random, &net));
            pairs.keep(0, reports::first_pair(&mut random));
            nets.keep(0, net);
        }
        let (tally, known, tried) = (Tally::default(), HashSet::new(), [0; 6]);
        Fuzz { random, tally, texts, nets, sheets, drawings, sets, pairs, known, tried }
    }

    /// A network's text behind a wish, with its out lines changed.
    fn fresh(&mut self, most: usize) -> Vec<u8> {
        let random = &mut self.random;
        let net = any(random, most);
        let wish = line(any_wish(random, &net));
        let (_, change) = *random.pick(&OUTS);
        [wish, with_outs(random, &net, change).into_bytes()].concat()
    }

    /// A kept text with some damage, at times a new one or a large network's.
    fn changed(&mut self) -> Vec<u8> {
        let mut text = self.texts.pick(&mut self.random).clone();
        if self.random.once_in(50) {
            let most = if self.random.once_in(10) { 1000 } else { 60 };
            text = self.fresh(most);
        }
        damaged(&mut self.random, &self.texts, text, mend)
    }

    /// The same of a drawing, where a new one is spoilt half the time.
    fn redrawn(&mut self) -> Vec<u8> {
        let random = &mut self.random;
        let mut text = self.drawings.pick(random).clone();
        if random.once_in(50) {
            let most = *random.pick(&[6, 60, 60, 60, 60, 1000]);
            let net = any(random, most);
            let mut lines = drawn(random, &net).1;
            let all: Vec<_> = ways().collect();
            if random.once_in(2) {
                random.pick(&all).2(random, &mut lines);
            }
            text = lines.concat();
        }
        damaged(random, &self.drawings, text, drawings::mend)
    }

    /// A text through the planner and, behind its first line, through Read and the keeper.
    fn text(&mut self) {
        let text = self.changed();
        let sheet = printed(&mut self.random, &mut self.tally, &PLAN, &text, mostly_enough);
        let behind = text.iter().position(|&byte| byte == b'\n').map_or(0, |at| at + 1);
        read(&mut self.random, &mut self.tally, &text[behind..], any_length);
        let asked = keep_input(&mut self.random, &text[behind..]).0;
        printed(&mut self.random, &mut self.tally, &KEEP, &asked, mostly_enough);
        self.tried[0] += 1;
        let manner = manner::printed(&text, &sheet);
        let class = manner.class();
        if self.known.insert(manner) && text.len() <= LONGEST {
            self.texts.keep(class, text);
        }
    }

    /// A kept table changed, at times so that it is refused, through every operation.
    fn table(&mut self) {
        let random = &mut self.random;
        let mut net = self.nets.pick(random).clone();
        for _ in 0..random.within(1, 5) {
            alter(random, &mut net);
        }
        if random.once_in(4) {
            damage(random, &mut net);
        }
        self.tried[1] += 1;
        match operations(random, &mut self.tally, &net, 2) {
            None => self.known.extend(manner::refused(&net)),
            Some(numbers) => self.wishes(&net, &numbers),
        }
    }

    /// An accepted table with some wishes: where the sweep goes in a new manner the planner is asked, and both are kept.
    fn wishes(&mut self, net: &Network, numbers: &[u16]) {
        let lefts = Lefts::new(net);
        for _ in 0..16 {
            let wish = wish(&mut self.random, net, numbers);
            let Some(manner) = lefts.manner(wish) else { continue };
            let class = manner.class();
            if self.known.insert(manner) {
                let text = input(net, wish).0;
                let sheet = printed(&mut self.random, &mut self.tally, &PLAN, &text, mostly_enough);
                if net.n <= RELAYS && net.lows.len() <= LINKS {
                    self.texts.keep(0, text);
                    self.nets.keep(class, net.clone());
                    self.sheets.keep(0, (net.clone(), sheet.into_bytes()));
                }
            }
        }
    }

    /// A kept sheet changed by what it says or by its bytes, or with another table, read back.
    fn sheet(&mut self) {
        let random = &mut self.random;
        let (mut net, mut text) = self.sheets.pick(random).clone();
        match (random.below(8), verify::read(&text)) {
            (0, _) => alter(random, &mut net),
            (1, _) => damage(random, &mut net),
            (2..=4, Ok(mut sheet)) if !sheet.routes.is_empty() => {
                let changes = if random.once_in(3) { &STILL[..] } else { &CHANGES };
                let (_, change) = *random.pick(changes);
                change(random, Known { net: &net, numbers: &numbers(&net) }, &mut sheet);
                text = sheet.text().into_bytes();
            }
            _ => (0..random.within(1, 3)).for_each(|_| scratch(random, &mut text)),
        }
        self.tried[2] += 1;
        verified(&mut self.tally, "changed on and on", &net, &text);
        let manner = manner::read_back(&net, &text);
        let (class, accepted) = (manner.class(), manner::refused(&net).is_none());
        if self.known.insert(manner) && accepted && text.len() <= LONGEST {
            self.sheets.keep(class, (net, text));
        }
    }

    /// A drawing through the import.
    fn drawing(&mut self) {
        let text = self.redrawn();
        import(&mut self.random, &mut self.tally, &text, any_length);
        import(&mut self.random, &mut self.tally, &text, mostly_enough);
        self.tried[3] += 1;
        let manner = manner::drawn(&text);
        let class = manner.class();
        if self.known.insert(manner) && text.len() <= LONGEST {
            self.drawings.keep(class, text);
        }
    }
}

fn main() {
    let mut words = std::env::args().skip(1).map(|word| word.parse().expect("SECONDS and SEED are numbers"));
    let seconds: u64 = words.next().unwrap_or(60);
    let seed: u64 = words.next().unwrap_or(1);
    let mut fuzz = Fuzz::new(seed);
    let start = Instant::now();
    while start.elapsed() < Duration::from_secs(seconds) {
        (0..10).for_each(|_| fuzz.text());
        (0..5).for_each(|_| fuzz.sheet());
        (0..5).for_each(|_| fuzz.drawing());
        (0..5).for_each(|_| fuzz.set());
        (0..5).for_each(|_| fuzz.pair());
        fuzz.table();
    }
    fuzz.tally.lines().0.iter().for_each(|line| println!("{line}"));
    let names = ["texts", "tables", "sheets", "drawings", "sets", "pairs of reports"];
    let kept = [
        fuzz.texts.count(),
        fuzz.nets.count(),
        fuzz.sheets.count(),
        fuzz.drawings.count(),
        fuzz.sets.count(),
        fuzz.pairs.count(),
    ];
    println!("{seconds} s from seed {seed}: {} manners of answering met", fuzz.known.len());
    for ((name, tried), kept) in names.iter().zip(fuzz.tried).zip(kept) {
        println!("{tried:9} {name} tried, {} kept", kept - FIRST);
    }
    println!("{} answers with their lists compared, 0 differ", fuzz.tally.compared());
}
