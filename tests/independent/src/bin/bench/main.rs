//! Times the proved library beside the plain Rust version and the flow program: the same networks, side by side in one run.
//! bench FOLDER [BATCHES] writes SPEED.md, speed.tsv and speed.svg to FOLDER; each time is the least of BATCHES, 25 if not given.
//! bench --count is the run of it in which callgrind counts the instructions.

mod counts;
mod page;
mod plot;
mod works;

use independent::table::Network;
use std::time::Instant;
use std::vec::IntoIter;
use works::Measure;

fn once(work: &mut dyn FnMut(), calls: u32) -> f64 {
    let start = Instant::now();
    for _ in 0..calls {
        work();
    }
    start.elapsed().as_secs_f64() * 1e6 / f64::from(calls)
}

/// The least time of each, in microseconds: turn by turn in short batches, so that both meet the same machine.
fn beside(batches: usize, works: &mut [&mut dyn FnMut()]) -> Vec<f64> {
    let calls: Vec<u32> = works.iter_mut().map(|work| (300.0 / once(work, 3)).clamp(1.0, 3000.0) as u32).collect();
    let mut best = vec![f64::MAX; works.len()];
    for _ in 0..batches {
        for (index, work) in works.iter_mut().enumerate() {
            best[index] = best[index].min(once(work, calls[index]));
        }
    }
    best
}

/// What one call takes: microseconds, or thousands of instructions.
struct Cost {
    library: f64,
    plain: f64,
    flow: Option<f64>,
}

impl Cost {
    fn of(costs: Vec<f64>) -> Cost {
        Cost { library: costs[0], plain: costs[1], flow: costs.get(2).copied() }
    }

    /// The library's cost over the plain program's.
    fn to_plain(&self) -> f64 {
        self.library / self.plain
    }

    /// The library's cost over the flow program's, where that has a part in it.
    fn to_flow(&self) -> Option<f64> {
        self.flow.map(|flow| self.library / flow)
    }
}

/// One operation on one network: the costs of the library and of what it is held against.
struct Row {
    kind: &'static str,
    n: usize,
    m: usize,
    what: String,
    time: Cost,
    count: Option<Cost>,
}

/// The rows so far; each time is the least of so many batches. The counts are those of the works to come.
struct Bench {
    batches: usize,
    counts: Option<IntoIter<f64>>,
    rows: Vec<Row>,
}

impl Measure for Bench {
    fn row(&mut self, kind: &'static str, net: &Network, what: &str, works: &mut [&mut dyn FnMut()]) {
        let time = Cost::of(beside(self.batches, works));
        let count = self.counts.as_mut().map(|counts| Cost::of(counts.take(works.len()).collect()));
        self.rows.push(Row { kind, n: usize::from(net.n), m: net.lows.len(), what: what.into(), time, count });
    }
}

fn main() {
    let mut words = std::env::args().skip(1);
    let folder = words.next().expect("bench FOLDER [BATCHES]");
    if folder == "--count" {
        return works::each(&mut counts::Count);
    }
    let batches = words.next().map_or(25, |word| word.parse().expect("BATCHES is a number"));
    std::fs::create_dir_all(&folder).expect("FOLDER is there or can be made");
    let machine = page::machine();
    eprintln!("counting instructions");
    let counts = counts::counts().map(Vec::into_iter);
    if counts.is_none() {
        eprintln!("there is no valgrind: the page goes without the instructions");
    }
    eprintln!("timing");
    let mut bench = Bench { batches, counts, rows: vec![] };
    works::each(&mut bench);
    assert!(bench.counts.as_ref().is_none_or(|counts| counts.len() == 0), "more counts than works");
    let page = page::page(&bench, &machine);
    let goals = page.lines().filter(|line| line.contains("| met |") || line.contains("| missed |"));
    goals.for_each(|line| println!("{line}"));
    let files = [("SPEED.md", page), ("speed.tsv", page::every_row(&bench.rows)), ("speed.svg", plot::plot(&bench.rows))];
    for (name, text) in files {
        std::fs::write(format!("{folder}/{name}"), text).unwrap_or_else(|fault| panic!("{folder}/{name}: {fault}"));
    }
}
