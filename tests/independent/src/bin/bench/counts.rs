//! The instructions that each work takes, counted by callgrind in a run of this program of its own.

use super::works::Measure;
use independent::table::Network;
use std::hint::black_box;
use std::io::ErrorKind;
use std::process::{Command, Stdio};

/// Runs each work twice. Only the second call is counted, so that nothing is that only a first call does.
pub struct Count;

impl Measure for Count {
    fn row(&mut self, _: &'static str, _: &Network, _: &str, works: &mut [&mut dyn FnMut()]) {
        for work in works {
            work();
            counted(work);
        }
    }
}

/// The name of `counted` as callgrind knows it.
const MARKER: &str = concat!(module_path!(), "::counted");

/// Callgrind counts from the entry of this function to its end, and then writes the total.
#[inline(never)]
fn counted(work: &mut dyn FnMut()) {
    work();
    black_box(()); // the call above is not the last thing, so it cannot become a jump that leaves the function
}

/// The thousands of instructions of each work, in the order of the rows; none where there is no valgrind.
pub fn counts() -> Option<Vec<f64>> {
    let ran = Command::new("valgrind")
        .args(["--quiet", "--tool=callgrind", "--callgrind-out-file=/dev/stdout", "--combine-dumps=yes"])
        .args([format!("--toggle-collect={MARKER}"), format!("--dump-after={MARKER}")])
        .arg(std::env::current_exe().expect("the path of this program"))
        .arg("--count")
        // Callgrind counts a `rep` instruction once a byte: the C library is to set and copy memory without.
        .env("GLIBC_TUNABLES", "glibc.cpu.hwcaps=-ERMS")
        .stderr(Stdio::inherit())
        .output();
    let output = match ran {
        Err(error) if error.kind() == ErrorKind::NotFound => return None,
        ran => ran.expect("valgrind runs"),
    };
    assert!(output.status.success(), "valgrind: {}", output.status);
    let dumps = String::from_utf8(output.stdout).expect("callgrind writes text");
    let totals = dumps.lines().filter_map(|line| line.strip_prefix("totals: "));
    let mut counts: Vec<f64> = totals.map(|total| total.parse::<f64>().expect("a total is a number") / 1e3).collect();
    counts.pop(); // the dump at the program's end, after the last work
    Some(counts)
}
