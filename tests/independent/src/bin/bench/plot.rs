//! The plot of the times.

use super::Row;
use super::works::SIZES;
use std::fmt::Write;

/// Time over n, both by powers of ten, for the random networks: the library as lines, what it is held against dashed.
pub fn plot(rows: &[Row]) -> String {
    const COLOURS: [(&str, &str); 5] =
        [("read", "#1b6ca8"), ("order", "#c0392b"), ("cut, k 2", "#8e44ad"), ("route, k 3", "#1e8449"), ("plan, k 2", "#b9770e")];
    let x = |n: usize| 70.0 + ((n as f64).log10() - 1.0) * 250.0;
    let y = |time: f64| 400.0 - time.log10() * 110.0;
    let mut svg = String::from(
        "<svg xmlns=\"http://www.w3.org/2000/svg\" width=\"760\" height=\"460\" font-family=\"sans-serif\" font-size=\"12\">\n\
         <rect width=\"760\" height=\"460\" fill=\"white\"/>\n\
         <text x=\"70\" y=\"22\" font-size=\"14\">Time of one call on random networks, three links a relay</text>\n",
    );
    for (power, label) in ["1 µs", "10 µs", "100 µs", "1 ms"].into_iter().enumerate() {
        let at = y(10f64.powi(power as i32));
        writeln!(
            svg,
            "<path d=\"M70 {at:.1} H570\" stroke=\"#ddd\"/><text x=\"62\" y=\"{:.1}\" text-anchor=\"end\">{label}</text>",
            at + 4.0
        )
        .unwrap();
    }
    for n in SIZES {
        let at = x(n);
        writeln!(
            svg,
            "<path d=\"M{at:.1} 50 V420\" stroke=\"#eee\"/><text x=\"{at:.1}\" y=\"436\" text-anchor=\"middle\">{n}</text>"
        )
        .unwrap();
    }
    svg += "<text x=\"320\" y=\"454\" text-anchor=\"middle\">relays</text>\n";
    let mut line = |points: Vec<(f64, f64)>, colour: &str, dashes: &str| {
        let points: Vec<String> = points.iter().map(|(x, y)| format!("{x:.1},{y:.1}")).collect();
        writeln!(svg, "<polyline points=\"{}\" fill=\"none\" stroke=\"{colour}\" stroke-width=\"2\"{dashes}/>", points.join(" "))
            .unwrap();
    };
    for (what, colour) in COLOURS {
        let of: Vec<&Row> = rows.iter().filter(|row| row.kind == "random" && row.what == what).collect();
        line(of.iter().map(|row| (x(row.n), y(row.time.library))).collect(), colour, "");
        let other = |row: &Row| row.time.flow.unwrap_or(row.time.plain);
        line(of.iter().map(|row| (x(row.n), y(other(row)))).collect(), colour, " stroke-dasharray=\"5 4\"");
    }
    for (index, (what, colour)) in COLOURS.into_iter().enumerate() {
        let at = 80 + 40 * index;
        let other = if what.starts_with("route") { "flow program" } else { "plain Rust" };
        writeln!(
            svg,
            "<path d=\"M590 {at} h30\" stroke=\"{colour}\" stroke-width=\"2\"/><text x=\"626\" y=\"{}\">{what}</text>\n\
             <path d=\"M590 {} h30\" stroke=\"{colour}\" stroke-width=\"2\" stroke-dasharray=\"5 4\"/><text x=\"626\" y=\"{}\">{other}</text>",
            at + 4,
            at + 16,
            at + 20
        )
        .unwrap();
    }
    svg + "</svg>\n"
}
