//! Texts with out lines (document 02, #105), good and bad.

use crate::random::Random;
use crate::table::Network;
use crate::text::text;

/// How the out lines of a text are changed; n goes with them.
pub type Outs = fn(&mut Random, u16, &mut Vec<String>);

/// Changes of out lines: first those that leave a text of the form, then those that are refused with 16, then departures.
pub const OUTS: [(&str, Outs); 15] = [
    ("as they are", |_, _, _| ()),
    ("of no relay at all", |_, _, outs| outs.clear()),
    ("of every relay", |_, n, outs| *outs = (0..n).map(line).collect()),
    ("one twice", |random, n, outs| {
        let at = one_at_least(random, n, outs);
        outs.insert(at, outs[at].clone());
    }),
    ("one again further on", |random, n, outs| {
        let at = one_at_least(random, n, outs);
        outs.push(outs[at].clone());
    }),
    ("falling", |random, n, outs| outs.extend([n - 1, random.below(usize::from(n)) as u16].map(line))),
    ("of the number behind the last relay", |_, n, outs| outs.push(line(n))),
    ("of a number far behind it", |random, n, outs| outs.push(line(n + *random.pick(&[1, 64, 256, 999, 8999])))),
    ("a zero in front", |random, n, outs| outs.push(format!("(out 0{})\n", random.below(usize::from(n))))),
    ("five digits", |random, _, outs| outs.push(format!("(out {})\n", random.within(10000, 99999)))),
    ("no number, or two", |random, _, outs| outs.push(random.pick(&["(out )\n", "(out)\n", "(out 1 2)\n"]).to_string())),
    ("another word", |random, _, outs| {
        let word = random.pick(&["off", "Out", "ous", "in", "ut", "end", "link", "o", "ou", "outs"]);
        outs.push(format!("({word} 0)\n"));
    }),
    ("a link behind them", |_, _, outs| outs.push("(link 0 1)\n".into())),
    ("another end of a line", |random, _, outs| {
        outs.push(random.pick(&["(out 0]\n", "(out 0)\r\n", "(out 0) \n", "(out 0)"]).to_string())
    }),
    ("behind the end", |_, _, outs| outs.push("(end)\n(out 0)\n".into())),
];

fn line(relay: u16) -> String {
    format!("(out {relay})\n")
}

/// The index of one of the out lines, with a new one where there is none.
fn one_at_least(random: &mut Random, n: u16, outs: &mut Vec<String>) -> usize {
    if outs.is_empty() {
        outs.push(line(random.below(usize::from(n)) as u16));
    }
    random.below(outs.len())
}

/// The text of a network with its out lines changed.
pub fn with_outs(random: &mut Random, net: &Network, change: Outs) -> String {
    let text = text(net);
    let (mut outs, others): (Vec<String>, Vec<String>) =
        text.split_inclusive('\n').map(String::from).partition(|line| line.starts_with("(out"));
    change(random, net.n, &mut outs);
    let (front, end) = others.split_at(others.len() - 1);
    [front, &outs, end].concat().concat()
}
