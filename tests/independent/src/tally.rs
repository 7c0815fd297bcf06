//! What a comparison counts: the answers by operation and code, the facts that held, and how often each kind of network, text, sheet,
//! drawing and report came up that must.

use crate::drawings::STYLES;
use crate::facts::{ENDS, STARTS};
use crate::outs::OUTS;
use crate::sets::{self, LATER};
use crate::sheets::{CHANGES, STILL};
use crate::spoilt::ways;
use crate::spoilt_sets::{SETS, bad_lines};
use crate::states::{BAD, GOOD, LENT};
use crate::verify::Fault;
use std::collections::BTreeMap;
use std::fmt::Debug;

/// Every code that an operation can give; of the two that print, the printed numbers and 12; of `verify`, 0 for a no and 1 for a
/// yes; of `stands`, 0 where the first stands and 1 where the second does.
const CODES: [(&str, &[u32]); 15] = [
    ("check", &[0, 3, 4, 5, 6, 7, 16]),
    ("pair", &[0, 5, 6]),
    ("read", &[0, 2, 3, 4, 5, 6, 7, 8, 16]),
    ("import", &[0, 3, 4, 5, 6, 7, 8, 18]),
    ("stands", &[0, 1, 19, 20, 21]),
    ("reports", &[0, 3, 4, 5, 8, 19, 20]),
    ("write", &[0, 3, 4, 5, 6, 7, 12, 16]),
    ("order", &[0, 3, 4, 5, 6, 7, 12, 16]),
    ("split", &[0, 3, 4, 5, 6, 7, 12, 16]),
    ("cut", &[0, 3, 4, 5, 6, 7, 9, 12, 16]),
    ("route", &[0, 3, 4, 5, 6, 7, 9, 10, 11, 12, 13, 16, 17]),
    ("route_links", &[0, 3, 4, 5, 6, 7, 9, 10, 11, 12, 13, 16, 17]),
    ("plan", &[0, 1, 2, 3, 4, 5, 6, 7, 9, 10, 11, 12, 13, 16, 17]),
    ("keep", &[0, 1, 2, 3, 4, 5, 6, 7, 9, 12, 16]),
    ("verify", &[0, 1, 3, 4, 5, 6, 7, 14, 15, 16]),
];

/// How sheets are made, beside the changes of `sheets`.
const MADE: [&str; 13] = [
    "the planner's own",
    "a refused line",
    "of the flow program",
    "of the time when all were in service",
    "two routes, no link in common",
    "the direct route twice",
    "there and back",
    "an empty text",
    "damaged",
    "damaged at every byte",
    "without over lines",
    "of another network",
    "behind a bad table",
];

/// How drawings come to be, beside the styles of `drawings` and the ways to spoil one of `spoilt`.
const DRAWN: [&str; 4] = ["of a bad table", "damaged", "damaged at every byte", "every byte in every place"];

/// How sets of link reports come to be, beside the styles of `sets` and the bad lines and ways to spoil one of `spoilt_sets`.
const SENT: [&str; 6] =
    ["of a bad table", "damaged", "damaged at every byte", "every byte in every place", "3,000 links", "the largest sets"];

/// How pairs of reports come to be, beside how the second differs in `sets`: bad lines of `spoilt_sets`, and these.
const PAIRED: [&str; 5] =
    ["two lines in one text", "an empty text", "damaged", "damaged at every byte", "every byte in every place"];

/// Lists that are lent for a good drawing or set: how many entries each has more than it needs, lows, highs and states.
pub const ROOMS: [(&str, [isize; 3]); 8] = [
    ("all just long enough", [0, 0, 0]),
    ("all longer", [1, 7, 3]),
    ("all far longer", [5000, 5000, 5000]),
    ("lows alone one too short", [-1, 0, 0]),
    ("highs alone one too short", [0, -1, 0]),
    ("states alone one too short", [0, 0, -1]),
    ("lows one too short, the others longer", [-1, 9, 9]),
    ("states one too short, the others longer", [9, 9, -1]),
];

/// The faults that a sheet can have without another. Equal ends and a relay not below n come with others.
const ALONE: [Fault; 9] = [
    Fault::Routes,
    Fault::Withdrawn,
    Fault::Ends,
    Fault::Twice,
    Fault::Count,
    Fault::Link,
    Fault::SharedRelay,
    Fault::SharedLink,
    Fault::Kept,
];

/// How often each operation gave each code, how often each fact was looked at, and how often there were such networks, texts, sheets,
/// drawings and reports.
#[derive(Default)]
pub struct Tally {
    codes: BTreeMap<(&'static str, u32), u64>,
    facts: BTreeMap<(&'static str, &'static str), u64>,
    starts: BTreeMap<&'static str, u64>,
    lasts: BTreeMap<&'static str, u64>,
    states: BTreeMap<&'static str, u64>,
    outs: BTreeMap<&'static str, u64>,
    sheets: BTreeMap<&'static str, u64>,
    faults: BTreeMap<Fault, u64>,
    drawings: BTreeMap<&'static str, u64>,
    sets: BTreeMap<&'static str, u64>,
    pairs: BTreeMap<&'static str, u64>,
}

impl Tally {
    /// An answer of the library with its lists, and the reference's.
    pub fn same<T: PartialEq + Debug>(
        &mut self,
        operation: &'static str,
        code: u32,
        library: T,
        reference: T,
        input: &dyn Debug,
    ) {
        *self.codes.entry((operation, code)).or_default() += 1;
        assert!(library == reference, "{operation}: library {library:?}\nreference {reference:?}\ninput {input:?}");
    }

    /// What another comparison counted, too.
    pub fn add(&mut self, other: Tally) {
        fn sum<K: Ord>(ours: &mut BTreeMap<K, u64>, theirs: BTreeMap<K, u64>) {
            theirs.into_iter().for_each(|(kind, times)| *ours.entry(kind).or_default() += times);
        }
        sum(&mut self.codes, other.codes);
        sum(&mut self.facts, other.facts);
        sum(&mut self.starts, other.starts);
        sum(&mut self.lasts, other.lasts);
        sum(&mut self.states, other.states);
        sum(&mut self.outs, other.outs);
        sum(&mut self.sheets, other.sheets);
        sum(&mut self.faults, other.faults);
        sum(&mut self.drawings, other.drawings);
        sum(&mut self.sets, other.sets);
        sum(&mut self.pairs, other.pairs);
    }

    /// A fact about what an operation gave.
    pub fn holds(&mut self, operation: &'static str, fact: &'static str, held: bool, input: &dyn Debug) {
        *self.facts.entry((operation, fact)).or_default() += 1;
        assert!(held, "{operation}: {fact}\ninput {input:?}");
    }

    /// A network whose order starts so.
    pub fn start(&mut self, start: &'static str) {
        *self.starts.entry(start).or_default() += 1;
    }

    /// A network whose order ends so.
    pub fn last(&mut self, last: &'static str) {
        *self.lasts.entry(last).or_default() += 1;
    }

    /// A state list of such a kind.
    pub fn states(&mut self, kind: &'static str) {
        *self.states.entry(kind).or_default() += 1;
    }

    /// A text whose out lines are so.
    pub fn outs(&mut self, outs: &'static str) {
        *self.outs.entry(outs).or_default() += 1;
    }

    /// A sheet that was made so, and its fault if it has one alone.
    pub fn sheet(&mut self, made: &'static str, alone: Option<Fault>) {
        *self.sheets.entry(made).or_default() += 1;
        if let Some(fault) = alone {
            *self.faults.entry(fault).or_default() += 1;
        }
    }

    /// A drawing that came to be so, or such lists lent for one.
    pub fn drawing(&mut self, kind: &'static str) {
        *self.drawings.entry(kind).or_default() += 1;
    }

    /// A set of reports that came to be so, or such lists lent for one.
    pub fn set(&mut self, kind: &'static str) {
        *self.sets.entry(kind).or_default() += 1;
    }

    /// Two reports that came to be so.
    pub fn pair(&mut self, kind: &'static str) {
        *self.pairs.entry(kind).or_default() += 1;
    }

    /// One line for each operation, each fact and each kind of network, text, sheet, drawing and report; then the codes and kinds never met.
    pub fn lines(&self) -> (Vec<String>, Vec<String>) {
        let (mut lines, mut missing) = (vec![], vec![]);
        for (operation, codes) in CODES {
            let of = |code: &u32| self.codes.get(&(operation, *code)).copied().unwrap_or(0);
            missing.extend(codes.iter().filter(|code| of(code) == 0).map(|code| format!("{operation} {code}")));
            let list: Vec<String> = codes.iter().map(|code| format!("{code}: {}", of(code))).collect();
            lines.push(format!("{operation:11} {}", list.join(", ")));
        }
        lines.extend(self.facts.iter().map(|((operation, fact), times)| format!("{times:9} {operation}: {fact}")));
        let changed = STILL.iter().chain(&CHANGES).map(|change| change.0);
        let made = MADE.into_iter().chain(changed).map(|made| (format!("sheets: {made}"), self.sheets.get(made)));
        let alone = ALONE.iter().map(|fault| (format!("sheets with one fault: {fault:?}"), self.faults.get(fault)));
        let starts = STARTS.iter().map(|start| (format!("networks: {start}"), self.starts.get(start)));
        let lasts = ENDS.iter().map(|last| (format!("networks: {last}"), self.lasts.get(last)));
        let lists = GOOD.iter().chain(&BAD).map(|kind| kind.0).chain(LENT);
        let states = lists.map(|kind| (format!("state lists: {kind}"), self.states.get(kind)));
        let outs = OUTS.iter().map(|(kind, _)| (format!("out lines: {kind}"), self.outs.get(kind)));
        let kinds = STYLES.iter().map(|style| style.0).chain(ways().map(|way| way.0)).chain(DRAWN);
        let drawn = kinds.map(|kind| (format!("drawings: {kind}"), self.drawings.get(kind)));
        let rooms = ROOMS.iter().map(|(kind, _)| (format!("lists for drawings: {kind}"), self.drawings.get(kind)));
        let networks = starts.chain(lasts).chain(states).chain(outs);
        for (kind, times) in networks.chain(made).chain(alone).chain(drawn).chain(rooms).chain(self.reports()) {
            lines.push(format!("{:9} {kind}", times.unwrap_or(&0)));
            missing.extend(times.is_none().then_some(kind));
        }
        (lines, missing)
    }

    /// The kinds of sets and pairs of reports, and how often there were such.
    fn reports(&self) -> impl Iterator<Item = (String, Option<&u64>)> {
        let lines = || bad_lines().map(|line| line.0);
        let sets = sets::STYLES.iter().map(|style| style.0).chain(SETS.iter().map(|way| way.0)).chain(SENT).chain(lines());
        let sets = sets.map(|kind| (format!("sets of reports: {kind}"), self.sets.get(kind)));
        let rooms = ROOMS.iter().map(|(kind, _)| (format!("lists for sets: {kind}"), self.sets.get(kind)));
        let pairs = LATER.iter().map(|later| later.0).chain(PAIRED).chain(lines());
        sets.chain(rooms).chain(pairs.map(|kind| (format!("two reports: {kind}"), self.pairs.get(kind))))
    }

    /// How many answers were compared.
    pub fn compared(&self) -> u64 {
        self.codes.values().sum()
    }
}
