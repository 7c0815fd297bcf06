//! The page: goals first, then the worst row of each operation by time and by instructions; and every row as a file of its own.

use super::works::LARGEST;
use super::{Bench, Cost, Row};
use std::fmt::Write;

/// Microseconds, or thousands of instructions.
fn short(cost: f64) -> String {
    if cost < 10.0 { format!("{cost:.2}") } else { format!("{cost:.1}") }
}

/// The machine and how busy it is, as far as it says so.
pub fn machine() -> String {
    let processors = std::thread::available_parallelism().map_or(0, usize::from);
    let model = std::fs::read_to_string("/proc/cpuinfo").unwrap_or_default();
    let model =
        model.lines().find_map(|line| line.strip_prefix("model name")).map(|rest| rest.trim_start_matches(['\t', ':', ' ']));
    let load = std::fs::read_to_string("/proc/loadavg").unwrap_or_default();
    let load = load.split(' ').next().filter(|word| !word.is_empty());
    format!(
        "{processors} processors ({}), with a load of {} over the minute before",
        model.unwrap_or("of a model not said"),
        load.unwrap_or("unknown size")
    )
}

fn goal(page: &mut String, what: &str, met: bool, worst: &str) {
    writeln!(page, "| {what} | {} | {worst} |", if met { "met" } else { "missed" }).unwrap();
}

/// The greatest of what the rows have, and its row.
fn worst(rows: &[Row], by: impl Fn(&Row) -> Option<f64>) -> Option<(&Row, f64)> {
    rows.iter().filter_map(|row| Some((row, by(row)?))).max_by(|a, b| a.1.total_cmp(&b.1))
}

/// The worst ratio to the flow program; the same in words, with the number of rows in which the library is better.
fn beside_flow(rows: &[Row], better: &str, cost: impl Fn(&Row) -> Option<&Cost>) -> Option<(f64, String)> {
    let ratio = |row: &Row| cost(row)?.to_flow();
    let (row, most) = worst(rows, ratio)?;
    let ratios: Vec<f64> = rows.iter().filter_map(ratio).collect();
    let less = ratios.iter().filter(|ratio| **ratio < 1.0).count();
    let all = ratios.len();
    Some((most, format!("{most:.2} times ({} {}, {}); {better} in {less} of {all} rows", row.kind, row.n, row.what)))
}

fn goals(page: &mut String, rows: &[Row]) {
    page.push_str("\n## Goals\n\n| goal | | worst |\n|---|---|---|\n");
    let mut at_most = |what: &str, limit: f64, beside: &str, of: &dyn Fn(&Row) -> bool| {
        let (row, ratio) = worst(rows, |row| of(row).then(|| row.time.to_plain())).expect("a row");
        let shown = format!("{ratio:.2} times ({} {})", row.kind, row.n);
        goal(page, &format!("`{what}` at most {limit} times {beside}"), ratio <= limit, &shown);
    };
    for what in ["order", "split", "cut"] {
        let of = |row: &Row| row.what.starts_with(what) && row.what != "order, by count";
        at_most(what, 1.5, "the plain version", &of);
    }
    at_most("import", 1.3, "`read` of the same links", &|row| row.what == "import, by read");
    at_most("reports", 1.0, "the plain version", &|row| row.what.starts_with("reports") && row.what != "reports, by read");
    at_most("reports", 2.5, "`read` of the same links", &|row| row.what == "reports, by read");
    let (ratio, mut shown) = beside_flow(rows, "faster", |row| Some(&row.time)).expect("a row");
    if let Some((_, counted)) = beside_flow(rows, "fewer", |row| row.count.as_ref()) {
        write!(shown, ". Instructions: {counted}").unwrap();
    }
    goal(page, "`route` faster than the flow program", ratio < 1.0, &shown);
    let mut under = |what: &str, limit: f64, of: &dyn Fn(&Row) -> bool| {
        let (row, time) = worst(rows, |row| of(row).then_some(row.time.library)).expect("a row");
        goal(page, what, time < limit, &format!("{} µs ({} {})", short(time), row.kind, row.n));
    };
    under("`plan` on the largest network under 2 ms", 2000.0, &|row| row.what.starts_with("plan") && row.n == LARGEST);
    under("`read` under 1 ms", 1000.0, &|row| row.what == "read");
}

/// The operation of a row, whatever k is.
fn operation(row: &Row) -> &str {
    row.what.split(", k ").next().unwrap_or(&row.what)
}

/// For each operation the row in which the library does worst beside plain Rust, and that in which it does worst beside the flow
/// program where that has a part in it.
fn worst_rows(page: &mut String, rows: &[Row], cost: impl Fn(&Row) -> Option<&Cost>) {
    page.push_str("\n| operation | network | m | library | beside | | ratio |\n|---|---|---|---|---|---|---|\n");
    let mut seen = vec![];
    for what in rows.iter().map(operation) {
        if seen.contains(&what) {
            continue;
        }
        seen.push(what);
        let of: Vec<(&Row, &Cost)> =
            rows.iter().filter(|row| operation(row) == what).filter_map(|row| Some((row, cost(row)?))).collect();
        let plain = of.iter().map(|(row, cost)| (row, cost, "plain Rust", cost.to_plain()));
        let flow = of.iter().filter_map(|(row, cost)| Some((row, cost, "flow program", cost.to_flow()?)));
        let worst = [plain.max_by(|a, b| a.3.total_cmp(&b.3)), flow.max_by(|a, b| a.3.total_cmp(&b.3))];
        for (Row { kind, n, m, what, .. }, cost, beside, ratio) in worst.into_iter().flatten() {
            let (library, other) = (short(cost.library), short(cost.library / ratio));
            writeln!(page, "| {what} | {kind} {n} | {m} | {library} | {beside} | {other} | {ratio:.2} |").unwrap();
        }
    }
}

/// Every row with its costs, the fields parted by tabs: times in microseconds, then instructions in thousands where they were
/// counted. A field is empty where the flow program has no part in it.
pub fn every_row(rows: &[Row]) -> String {
    let costs = |cost: Option<&Cost>| match cost {
        None => "\t\t".into(),
        Some(Cost { library, plain, flow }) => format!("{}\t{}\t{}", short(*library), short(*plain), flow.map_or(String::new(), short)),
    };
    let heads = ["library", "plain Rust", "flow program"];
    let heads = ["µs", "thousand instructions"].map(|unit| heads.map(|head| format!("{head}, {unit}")).join("\t"));
    let mut text = format!("network\tn\tm\toperation\t{}\n", heads.join("\t"));
    for Row { kind, n, m, what, time, count } in rows {
        writeln!(text, "{kind}\t{n}\t{m}\t{what}\t{}\t{}", costs(Some(time)), costs(count.as_ref())).unwrap();
    }
    text
}

pub fn page(bench: &Bench, machine: &str) -> String {
    let Bench { batches, rows, .. } = bench;
    let mut page = format!(
        "# How fast it is\n\n\
         Written by `tests/bench`: the proved library beside an ordinary Rust program for the same operation (`tests/independent/src/swift.rs`,\n\
         a scan over one array of keys, `swift_text.rs`, `swift_dimacs.rs` and `swift_reports.rs`) and beside a flow program (Dinic on split relays, `flow.rs`), on the same networks in one run.\n\
         The run was made on {machine}.\n\
         Each time is the least of {batches} batches, in microseconds. Every operation but `read`, `import`, `reports` and `plan` includes the table check.\n\
         The flow program finds and writes its k routes; it checks nothing. A route joins the two ends of the widest stretch of places in\n\
         one tree of forest k, and `route with links` gives the indices of its links, too. `order, by count` sets the library's order beside\n\
         a plain scan that keeps the waiting relays by their count, as bits, as the library does. `plan` is the whole planner, from the bytes\n\
         of a wish and a network to the bytes of the sheet, and `verify` reads that sheet back with the table.\n\
         `import` is given a drawing of the links without comments, the low end first in each line or, with `ends mixed`, in half of them; with\n\
         `by read` the column of plain Rust has the library's own `read`, on a text of the same links without `out` lines.\n\
         `reports` is given the link reports of the relays in service, in any order; with `by read` the column of plain Rust has the library's\n\
         own `read`, on a text of the network that they make; with `most seen from the low end` each relay also sees all higher ones, with\n\
         `from the high end` all lower ones, some 2 MB.\n\
         Networks: `random` has three links a relay, `band` links each relay to the next three, `core` is a full network of 70 with a tree on it,\n\
         and `thinned` is `random` with each tenth relay withdrawn; in the others all are in service.\n\
         `speed.tsv` has every row: each operation on each network, with its times and instructions.\n\n\
         ![Time by size of the network](speed.svg)\n",
    );
    goals(&mut page, rows);
    page.push_str("\n## The worst row of each operation\n");
    worst_rows(&mut page, rows, |row| Some(&row.time));
    if rows.iter().any(|row| row.count.is_some()) {
        page.push_str(
            "\n## The same by instructions\n\n\
             Thousands of instructions of one call, counted by callgrind in a run of its own: each call of a row once, after one that is\n\
             not counted. Unlike times they hardly vary, but they do not show what memory, branches and parallel execution cost: times are still\n\
             what the goals are judged by. The allocator's instructions are counted with those of the flow program and of plain Rust, which\n\
             allocate. The C library sets and copies memory without `rep` instructions here, since callgrind counts these once a byte.\n",
        );
        worst_rows(&mut page, rows, |row| row.count.as_ref());
    }
    page
}
