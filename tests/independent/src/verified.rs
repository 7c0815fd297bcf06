//! Sheets read back by the library, against the second version: the planner's own, others that hold or nearly hold, changed and
//! damaged ones, and sheets behind a table that is refused.

use crate::generate::{alter, any, scratch};
use crate::library::{self, Report};
use crate::random::Random;
use crate::sheet::Sheet;
use crate::sheets::{CHANGES, Known, STILL, crossing, direct_twice, flowing, formerly, there_and_back};
use crate::table::Network;
use crate::tally::Tally;
use crate::variants::at_every_byte;
use crate::verify::{self, verify};

/// Compares what is said of a sheet that was made so, and gives whether it is a yes.
pub fn verified(tally: &mut Tally, made: &'static str, net: &Network, text: &[u8]) -> bool {
    let outcome = verify(net, text);
    let alone = outcome.as_ref().ok().filter(|faults| faults.len() == 1).map(|faults| faults[0]);
    let reference = Report::one(outcome.map(|faults| faults.is_empty()));
    let held = reference == Report::of(Ok([1, 0]));
    let code = if held { 1 } else { reference.code };
    tally.same("verify", code, library::verify(net, text), reference, &(net, String::from_utf8_lossy(text)));
    tally.sheet(made, alone);
    held
}

/// The same of a sheet that must be a yes.
fn holding(tally: &mut Tally, made: &'static str, net: &Network, sheet: &Sheet) {
    let held = verified(tally, made, net, sheet.text().as_bytes());
    tally.holds("verify", "a sheet that must hold does", held, &(net, made, sheet));
}

/// A text damaged in some places, or at every byte if it is small.
fn damaged(random: &mut Random, tally: &mut Tally, net: &Network, text: &[u8]) {
    for _ in 0..3 {
        let mut bad = text.to_vec();
        (0..random.within(1, 2)).for_each(|_| scratch(random, &mut bad));
        verified(tally, "damaged", net, &bad);
    }
    if text.len() <= 165 && random.once_in(8) {
        for variant in at_every_byte(random, text) {
            verified(tally, "damaged at every byte", net, &variant);
        }
    }
}

/// A sheet that holds, changed so that it holds still; and changed so that it may not.
fn changed(random: &mut Random, tally: &mut Tally, known: Known, sheet: &Sheet) {
    let (made, change) = *random.pick(&STILL);
    let mut still = sheet.clone();
    change(random, known, &mut still);
    holding(tally, made, known.net, &still);
    for _ in 0..4 {
        let (made, change) = *random.pick(&CHANGES);
        let mut other = still.clone();
        change(random, known, &mut other);
        verified(tally, made, known.net, other.text().as_bytes());
    }
}

/// A sheet with a network that is a little other than its own, or wholly other.
fn elsewhere(random: &mut Random, tally: &mut Tally, net: &Network, text: &[u8]) {
    let mut other = net.clone();
    if random.once_in(4) {
        other = any(random, 100);
    } else {
        (0..random.within(1, 3)).for_each(|_| alter(random, &mut other));
    }
    verified(tally, "of another network", &other, text);
}

/// The planner's sheet or refused line, and what becomes of it.
pub fn our_sheet(random: &mut Random, tally: &mut Tally, known: Known, text: &str) {
    let Ok(sheet) = verify::read(text.as_bytes()) else {
        verified(tally, "a refused line", known.net, text.as_bytes());
        return;
    };
    tally.holds("verify", "a sheet that was read has the same text", sheet.text() == text, &text);
    holding(tally, "the planner's own", known.net, &sheet);
    changed(random, tally, known, &sheet);
    damaged(random, tally, known.net, text.as_bytes());
    elsewhere(random, tally, known.net, text.as_bytes());
    let without: String = text.split_inclusive('\n').filter(|line| !line.starts_with("(over")).collect();
    verified(tally, "without over lines", known.net, without.as_bytes());
}

/// Sheets that the planner did not print.
pub fn other_sheets(random: &mut Random, tally: &mut Tally, known: Known) {
    verified(tally, "an empty text", known.net, b"");
    if let Some(sheet) = flowing(random, known) {
        holding(tally, "of the flow program", known.net, &sheet);
        changed(random, tally, known, &sheet);
        damaged(random, tally, known.net, sheet.text().as_bytes());
    }
    if let Some(sheet) = formerly(random, known) {
        verified(tally, "of the time when all were in service", known.net, sheet.text().as_bytes());
    }
    if let Some(sheet) = crossing(random, known) {
        verified(tally, "two routes, no link in common", known.net, sheet.text().as_bytes());
    }
    if let Some(sheet) = direct_twice(random, known) {
        verified(tally, "the direct route twice", known.net, sheet.text().as_bytes());
    }
    if let Some(sheet) = there_and_back(random, known) {
        verified(tally, "there and back", known.net, sheet.text().as_bytes());
    }
}

/// A sheet, or something else, behind a table that is refused.
pub fn before_sheets(random: &mut Random, tally: &mut Tally, net: &Network) {
    let mut text = b"(sheet (from 0) (to 1) (k 1))\n(route 0 1)\n(over 0)\n(kept 1)\n(end)\n".to_vec();
    if random.once_in(2) {
        scratch(random, &mut text);
    }
    verified(tally, "behind a bad table", net, &text);
}
