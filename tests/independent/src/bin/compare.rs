//! Compares the proved library with the second version of document 01, on seeded networks and texts.
//! compare [SEED [COUNT]]: the networks at the boundaries from SEED; then case i of COUNT uses the seed SEED + i, so a failure names
//! a case that can be run alone. The cases are shared among as many threads as there are processors.

use independent::against::{boundary_cases, case};
use independent::tally::Tally;
use std::panic::{AssertUnwindSafe, catch_unwind};
use std::thread::{Builder, available_parallelism};

/// What the main thread has: a case may need more than another thread has if it does not ask for it.
const STACK: usize = 8 << 20;

/// Does a part of the comparison; if it fails, says which, and the words with which it runs alone.
fn part<T>(what: &str, alone: &str, work: impl FnOnce() -> T) -> T {
    catch_unwind(AssertUnwindSafe(work)).unwrap_or_else(|_| {
        eprintln!("{what} fails; it runs alone as: tests/run {alone}");
        std::process::exit(1)
    })
}

/// The cases of these seeds.
fn cases(seeds: impl Iterator<Item = u64>) -> Tally {
    let mut tally = Tally::default();
    for seed in seeds {
        part(&format!("case {seed}"), &format!("{seed} 1"), || case(seed, &mut tally));
    }
    tally
}

fn main() {
    let mut words = std::env::args().skip(1).map(|word| word.parse().expect("SEED and COUNT are numbers"));
    let seed: u64 = words.next().unwrap_or(1);
    let count: u64 = words.next().unwrap_or(2000);
    let threads = available_parallelism().map_or(1, usize::from);
    let start = |thread: usize| {
        let seeds = (seed..seed + count).skip(thread).step_by(threads);
        Builder::new().stack_size(STACK).spawn(move || cases(seeds)).expect("a thread")
    };
    let others: Vec<_> = (1..threads).map(start).collect();
    let mut tally = Tally::default();
    let boundaries = part("a network at the boundaries", &format!("{seed} 0"), || boundary_cases(seed, &mut tally));
    tally.add(cases((seed..seed + count).step_by(threads)));
    others.into_iter().for_each(|other| tally.add(other.join().expect("its tally")));
    let (lines, missing) = tally.lines();
    lines.iter().for_each(|line| println!("{line}"));
    if !missing.is_empty() {
        println!("never met: {}", missing.join(", "));
    }
    let compared = tally.compared();
    println!(
        "{boundaries} networks at the boundaries and {count} more from seed {seed}: {compared} answers with their lists compared, 0 differ"
    );
    if !missing.is_empty() && count >= 2000 {
        std::process::exit(1);
    }
}
