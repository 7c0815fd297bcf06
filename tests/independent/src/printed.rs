//! What the library's planner and keeper print, against the second version's: the report and every byte of the output, which is too
//! short, exact or longer.

use crate::generate::scratch;
use crate::lengths::Lengths;
use crate::library::{self, Report};
use crate::random::Random;
use crate::table::room;
use crate::tally::Tally;
use crate::{keep, plan};

/// A program of the library and the second version's, by the operation's name.
pub struct Program {
    name: &'static str,
    library: fn(&[u8], &mut [u8]) -> Report,
    reference: fn(&[u8]) -> String,
}

pub const PLAN: Program = Program { name: "plan", library: library::plan, reference: plan::plan };
pub const KEEP: Program = Program { name: "keep", library: library::keep, reference: keep::keep };

/// The number in a refused line, 0 in anything else.
fn number(text: &str) -> u32 {
    text.strip_prefix("(refused ").map_or(0, |rest| rest.split(' ').next().unwrap().parse().unwrap())
}

/// Compares what a program prints, and gives it.
pub fn printed(random: &mut Random, tally: &mut Tally, program: &Program, input: &[u8], lengths: Lengths) -> String {
    let text = (program.reference)(input);
    let size = lengths(random, text.len());
    let mut ours = random.bytes(size);
    let mut theirs = ours.clone();
    let report = (program.library)(input, &mut theirs);
    let outcome = room(&ours, text.len()).map(|()| ours[..text.len()].copy_from_slice(text.as_bytes()));
    let code = if outcome.is_ok() { number(&text) } else { 12 };
    let reference = Report::of(outcome.map(|()| [text.len() as u64, 0]));
    let shown = String::from_utf8_lossy(input);
    tally.same(program.name, code, (report, theirs), (reference, ours), &shown);
    text
}

/// The keeper's input for a network's text: a line that asks for some k, at times damaged, and where it ends the text.
pub fn keep_input(random: &mut Random, text: &[u8]) -> (Vec<u8>, usize) {
    let k = if random.once_in(8) { *random.pick(&[0, 33, 1000, 9999]) } else { random.within(1, 32).min(random.within(1, 32)) };
    let mut input = format!("(keep {k})\n").into_bytes();
    if random.once_in(8) {
        scratch(random, &mut input);
    }
    let end = input.len();
    input.extend(text);
    (input, end)
}
