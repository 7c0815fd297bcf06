//! The library's Read and its two programs on texts, against the second version: as written, with other out lines, and damaged.

use crate::dimacs;
use crate::generate::scratch;
use crate::lengths::{Lengths, mostly_enough};
use crate::library::{self, Report};
use crate::outs::{OUTS, with_outs};
use crate::printed::{KEEP, PLAN, Program, keep_input, printed};
use crate::random::Random;
use crate::states;
use crate::sweep::Wish;
use crate::table::{Network, Refusal, check};
use crate::tally::Tally;
use crate::text::{self, HEADER, form};
use crate::variants::at_every_byte;
use crate::wishes::line;

/// How many links and relays a text announces; a few where its first line is bad.
fn announced(text: &[u8]) -> (usize, usize) {
    form(text, 0, HEADER).map_or((7, 5), |(header, _)| (header[1].min(3000).into(), header[0].min(1000).into()))
}

/// Reads a text into the lists lows, highs and states.
type Reads<T> = dyn Fn(&[u8], &mut [u16], &mut [u16], &mut [u16]) -> T;

/// An operation that does so: the library's and the second version's, by its name, and n where that does not stand in the text.
pub struct Reader<'a> {
    pub name: &'static str,
    pub n: Option<u16>,
    pub library: &'a Reads<Report>,
    pub reference: &'a Reads<Result<(u16, u16), Refusal>>,
}

const READ: Reader = Reader { name: "read", n: None, library: &library::read, reference: &text::read };
pub const IMPORT: Reader = Reader { name: "import", n: None, library: &library::import, reference: &dimacs::import };

/// A text through one of them, with every entry of the three lists, which have these lengths; gives the lists.
pub fn into_lists(random: &mut Random, tally: &mut Tally, reader: &Reader, input: &[u8], lengths: [usize; 3]) -> [Vec<u16>; 3] {
    let mut ours = lengths.map(|length| random.numbers(length));
    let mut theirs = ours.clone();
    let [lows, highs, states] = &mut ours;
    let reference = Report::of((reader.reference)(input, lows, highs, states).map(|(n, m)| [n.into(), m.into()]));
    let [lows, highs, states] = &mut theirs;
    let report = (reader.library)(input, lows, highs, states);
    let shown = (reader.n, String::from_utf8_lossy(input));
    tally.same(reader.name, reference.code, (report, &theirs), (reference, &ours), &shown);
    theirs
}

/// What the lists of an accepted text hold: the network that it was made of, which the library writes and reads again.
pub fn faithful(tally: &mut Tally, operation: &'static str, net: &Network, lists: &[Vec<u16>; 3], input: &[u8]) {
    let (n, m) = (usize::from(net.n), net.lows.len());
    let [lows, highs, states] = lists;
    let same = lows[..m] == net.lows && highs[..m] == net.highs && states[..n] == net.states;
    let shown = String::from_utf8_lossy(input);
    tally.holds(operation, "the network is the one that the text was made of", same, &shown);

    let mut text = vec![0; text::text(net).len()];
    let [mut lows, mut highs, mut states] = [m, m, n].map(|length| vec![0; length]);
    let wrote = library::write(net, &mut text);
    let read = library::read(&text, &mut lows, &mut highs, &mut states);
    let again = wrote.code == 0 && read == Report { code: 0, answer: [n as u64, m as u64] };
    let again = again && *net == Network { n: net.n, lows, highs, states };
    tally.holds(operation, "what is written of it is read as the same", again, &shown);
}

/// A text through Read.
pub fn read(random: &mut Random, tally: &mut Tally, input: &[u8], lengths: Lengths) {
    let (links, relays) = announced(input);
    let lengths = [links, links, relays].map(|exact| lengths(random, exact));
    states::lent(input, lengths[0].min(lengths[1]), lengths[2]).into_iter().for_each(|kind| tally.states(kind));
    into_lists(random, tally, &READ, input, lengths);
}

/// The planner's input: the line of a wish, and where it ends the network's text.
pub fn input(net: &Network, wish: Wish) -> (Vec<u8>, usize) {
    let mut input = line(wish);
    let end = input.len();
    input.extend(text::text(net).bytes());
    (input, end)
}

/// An input through its program and, behind the line that asks, through Read.
fn through(random: &mut Random, tally: &mut Tally, program: &Program, input: &[u8], line: usize) {
    printed(random, tally, program, input, mostly_enough);
    read(random, tally, input.get(line..).unwrap_or_default(), mostly_enough);
}

/// Inputs of a program: as written, damaged, and small ones damaged at every byte.
fn inputs(random: &mut Random, tally: &mut Tally, program: &Program, (input, line): (Vec<u8>, usize)) {
    through(random, tally, program, &input, line);
    for _ in 0..3 {
        let mut bad = input.clone();
        for _ in 0..random.within(1, 2) {
            scratch(random, &mut bad);
        }
        through(random, tally, program, &bad, line);
    }
    if input.len() <= 165 {
        for variant in at_every_byte(random, &input) {
            through(random, tally, program, &variant, line);
        }
    }
}

/// The text of an accepted network with its out lines changed in some ways, through Read and one of the programs.
fn out_lines(random: &mut Random, tally: &mut Tally, net: &Network, wish: Wish) {
    for _ in 0..3 {
        let (made, change) = *random.pick(&OUTS);
        let text = with_outs(random, net, change).into_bytes();
        tally.outs(made);
        let (program, (input, line)) = if random.once_in(2) {
            (KEEP, keep_input(random, &text))
        } else {
            (PLAN, ([line(wish), text].concat(), line(wish).len()))
        };
        through(random, tally, &program, &input, line);
    }
}

/// The inputs of both programs for a network.
pub fn texts(random: &mut Random, tally: &mut Tally, net: &Network, wish: Wish) {
    let planned = input(net, wish);
    let kept = keep_input(random, &planned.0[planned.1..]);
    inputs(random, tally, &PLAN, planned);
    inputs(random, tally, &KEEP, kept);
    if check(net).is_ok() {
        out_lines(random, tally, net, wish);
    }
}
