//! Link reports and sets of them (document 02, #108) that are spoilt in one way.

use crate::generate::any;
use crate::random::Random;
use crate::reports::LinkReport;
use crate::sets::{crowd, see, sent, serial, text};
use std::collections::BTreeSet;

/// Makes of a report a text that is none, and is refused with 19; nothing where it has not what it takes, such as a neighbour.
pub type Spoil = fn(&mut Random, &LinkReport) -> Option<Vec<u8>>;

/// What a report has, as words.
struct Words {
    relay: String,
    serial: String,
    sees: Vec<String>,
}

/// The text of a report after a change of its words.
fn changed(report: &LinkReport, change: impl FnOnce(&mut Words) -> Option<()>) -> Option<Vec<u8>> {
    let LinkReport { relay, serial, sees } = report;
    let mut words =
        Words { relay: relay.to_string(), serial: serial.to_string(), sees: sees.iter().map(u16::to_string).collect() };
    change(&mut words)?;
    let Words { relay, serial, sees } = words;
    let sees: String = sees.into_iter().map(|word| " ".to_string() + &word).collect();
    Some(format!("(report {relay} {serial} (sees{sees}))\n").into_bytes())
}

/// Another serial.
fn with_serial(report: &LinkReport, serial: impl Into<String>) -> Option<Vec<u8>> {
    changed(report, |words| {
        words.serial = serial.into();
        Some(())
    })
}

/// Another relay, as a word.
fn with_relay(report: &LinkReport, relay: impl Into<String>) -> Option<Vec<u8>> {
    changed(report, |words| {
        words.relay = relay.into();
        Some(())
    })
}

/// One word more behind those seen.
fn also_sees(report: &LinkReport, relay: impl Into<String>) -> Option<Vec<u8>> {
    changed(report, |words| {
        words.sees.push(relay.into());
        Some(())
    })
}

/// Another word for one of those seen, made of it.
fn one_seen(random: &mut Random, report: &LinkReport, word: impl Fn(&str) -> String) -> Option<Vec<u8>> {
    let at = random.below(report.sees.len());
    changed(report, |words| words.sees.get_mut(at).map(|seen| *seen = word(seen)))
}

/// The text of a report with bytes in the place of others, such as they stand there.
fn replaced(report: &LinkReport, from: &str, to: &str) -> Option<Vec<u8>> {
    let text = report.text();
    let other = text.replacen(from, to, 1);
    (other != text).then_some(other.into_bytes())
}

/// One space, at random, becomes something else.
fn spaced(random: &mut Random, report: &LinkReport, to: &str) -> Option<Vec<u8>> {
    let text = report.text();
    let spaces: Vec<usize> = text.match_indices(' ').map(|found| found.0).collect();
    let at = *random.pick(&spaces);
    Some([&text[..at], to, &text[at + 1..]].concat().into_bytes())
}

/// Words out of their form or range.
pub const WORDS: [(&str, Spoil); 20] = [
    ("a serial 4294967296", |_, report| with_serial(report, "4294967296")),
    ("a serial of ten nines", |_, report| with_serial(report, "9999999999")),
    ("a serial of ten digits past its range", |random, report| {
        with_serial(report, random.within(4_294_967_296, 9_999_999_999).to_string())
    }),
    ("a serial of eleven digits", |random, report| {
        with_serial(report, *random.pick(&["10000000000", "42949672960", "99999999999", "18446744073709551616"]))
    }),
    ("a zero in front of a serial", |_, report| with_serial(report, format!("0{}", report.serial))),
    ("00 for a serial", |_, report| with_serial(report, "00")),
    ("no serial", |random, report| with_serial(report, *random.pick(&["", "-1", "+1", "x", "1.0", "0x1", "("]))),
    ("two serials", |_, report| with_serial(report, format!("{0} {0}", report.serial))),
    ("relay 1000", |_, report| with_relay(report, "1000")),
    ("a relay over 999", |random, report| with_relay(report, random.within(1001, 9999).to_string())),
    ("five digits of a relay", |random, report| with_relay(report, random.within(10_000, 99_999).to_string())),
    ("a zero in front of a relay", |_, report| with_relay(report, format!("0{}", report.relay))),
    ("no relay", |random, report| with_relay(report, *random.pick(&["", "-1", "x", "("]))),
    ("a neighbour 1000", |_, report| also_sees(report, "1000")),
    ("a neighbour over 999", |random, report| also_sees(report, random.within(1001, 9999).to_string())),
    ("five digits of a neighbour", |random, report| also_sees(report, random.within(10_000, 99_999).to_string())),
    ("a zero in front of a neighbour", |random, report| one_seen(random, report, |word| format!("0{word}"))),
    ("a word for a neighbour", |random, report| {
        let word = *random.pick(&["x", "-1", "", "(", "1,"]);
        also_sees(report, word)
    }),
    ("a neighbour twice", |random, report| one_seen(random, report, |word| format!("{word} {word}"))),
    ("neighbours that fall", |random, report| {
        let at = random.within(1, report.sees.len().max(2) - 1);
        changed(report, |words| (at < words.sees.len()).then(|| words.sees.swap(at - 1, at)))
    }),
];

/// Other departures from the form, and the report's own relay.
pub const LINES: [(&str, Spoil); 18] = [
    ("its own relay seen", |_, report| {
        let mut own = report.clone();
        see(&mut own, report.relay);
        Some(own.text().into_bytes())
    }),
    ("its own relay alone seen", |_, report| Some(LinkReport { sees: vec![report.relay], ..report.clone() }.text().into_bytes())),
    ("no line end", |_, report| replaced(report, "\n", "")),
    ("CRLF", |_, report| replaced(report, "\n", "\r\n")),
    ("a byte 0 for the line end", |_, report| replaced(report, "\n", "\0")),
    ("a blank line behind", |_, report| replaced(report, "\n", "\n\n")),
    ("a blank line in front", |_, report| replaced(report, "(report", "\n(report")),
    ("a space at the end", |_, report| replaced(report, "\n", " \n")),
    ("a space in front", |_, report| replaced(report, "(report", " (report")),
    ("a space behind those seen", |_, report| replaced(report, "))", " ))")),
    ("two spaces", |random, report| spaced(random, report, "  ")),
    ("another byte for a space", |random, report| {
        let byte = *random.pick(&["\t", ",", "_", "\0", "\n"]);
        spaced(random, report, byte)
    }),
    ("another word for report", |random, report| {
        let word = *random.pick(&["(Report", "(reports", "(repor", "(link", "report", "[report", "((report", "("]);
        replaced(report, "(report", word)
    }),
    ("another word for sees", |random, report| {
        let word = *random.pick(&["(Sees", "(seen", "(see", "(seess", "sees", "[sees", "((sees", "(", "(sees)"]);
        replaced(report, "(sees", word)
    }),
    ("no list of those seen", |_, report| Some(format!("(report {} {})\n", report.relay, report.serial).into_bytes())),
    ("a bracket too few or too many", |random, report| {
        let brackets = *random.pick(&[")", "", ")))", ")]", "])", ") )"]);
        replaced(report, "))", brackets)
    }),
    ("a comment behind", |_, report| replaced(report, "\n", " c\n")),
    ("a line of another text", |random, _| {
        let lines =
            ["\n", "(end)\n", "(link 0 1)\n", "(net (relays 5) (links 0))\n", "c\n", "e 1 2\n", "(out 0)\n", "(reports 5)\n"];
        Some(random.pick(&lines).as_bytes().to_vec())
    }),
];

/// Every way of making a line that is no report.
pub fn bad_lines() -> impl Iterator<Item = (&'static str, Spoil)> {
    WORDS.into_iter().chain(LINES)
}

/// Any of them that the report can take.
pub fn bad_line(random: &mut Random, report: &LinkReport) -> (&'static str, Vec<u8>) {
    let all: Vec<_> = bad_lines().collect();
    loop {
        let (kind, spoil) = *random.pick(&all);
        if let Some(line) = spoil(random, report) {
            return (kind, line);
        }
    }
}

/// A set that is refused, with its n: made of one that is accepted, whose lines are good ones. What is put at the end is bytes.
pub type SpoilSet = fn(&mut Random, &mut u16, &mut Vec<LinkReport>) -> Option<Vec<u8>>;

/// What sets are refused with beside 19, and which of two refusals comes first.
pub const SETS: [(&str, u32, SpoilSet); 17] = [
    ("n 0", 3, |_, n, _| {
        *n = 0;
        Some(vec![])
    }),
    ("n over 1,000", 3, |random, n, _| {
        *n = *random.pick(&[1001, 1002, 1024, 9999, 65_535]);
        Some(vec![])
    }),
    ("3 before 19", 3, |random, n, _| {
        *n = *random.pick(&[0, 1001]);
        Some(b"(report".to_vec())
    }),
    ("a report twice", 20, |random, _, reports| twice(random, reports, |_, _| ())),
    ("two reports of a relay, other serials", 20, |random, _, reports| {
        twice(random, reports, |random, report| report.serial = serial(random))
    }),
    ("two reports of a relay, other neighbours", 20, |random, _, reports| {
        twice(random, reports, |_, report| report.sees.clear())
    }),
    ("19 on the last line before 20", 19, |random, _, reports| {
        twice(random, reports, |_, _| ())?;
        Some(bad_line(random, &reports[0]).1)
    }),
    ("19 on the last line before 5", 19, |random, n, reports| {
        reports.push(beyond(*n)?);
        Some(bad_line(random, &reports[0]).1)
    }),
    ("20 before 5", 20, |random, n, reports| {
        let far = beyond(*n)?;
        twice(random, reports, |_, _| ())?;
        reports.insert(random.below(reports.len() + 1), far);
        Some(vec![])
    }),
    ("5 and 20 on the same relay", 20, |_, n, reports| {
        let far = beyond(*n)?;
        reports.extend([far.clone(), far]);
        Some(vec![])
    }),
    ("a report of the number behind the last relay", 5, |random, n, reports| {
        reports.insert(random.below(reports.len() + 1), beyond(*n)?);
        Some(vec![])
    }),
    ("that number seen", 5, |random, n, reports| {
        let at = random.below(reports.len());
        see(reports.get_mut(at)?, beyond(*n)?.relay);
        Some(vec![])
    }),
    ("999 seen, which nobody answers", 5, |random, n, reports| {
        let at = random.below(reports.len());
        see(reports.get_mut(at).filter(|_| *n < 1000)?, 999);
        Some(vec![])
    }),
    ("n 1 lower than the highest number", 5, |_, n, reports| {
        let top = reports.iter().flat_map(|report| report.sees.iter().chain([&report.relay])).max()?;
        *n = (*top > 0).then_some(*top)?;
        Some(vec![])
    }),
    ("5 before 4", 5, |random, n, reports| {
        *reports = linked(random, 3001);
        *n = 999;
        Some(vec![])
    }),
    ("3,001 links", 4, |random, n, reports| {
        *reports = linked(random, 3001);
        *n = 1000;
        Some(vec![])
    }),
    ("every pair of 100 relays", 4, |random, n, reports| {
        *reports = crowd(random, |a, b| a < 100 && b < 100);
        *n = 1000;
        Some(vec![])
    }),
];

/// A report of relay n, which no network of n relays has.
fn beyond(n: u16) -> Option<LinkReport> {
    (n < 1000).then_some(LinkReport { relay: n, serial: 0, sees: vec![] })
}

/// One report again, anywhere, after a change.
fn twice(random: &mut Random, reports: &mut Vec<LinkReport>, change: fn(&mut Random, &mut LinkReport)) -> Option<Vec<u8>> {
    let mut again = reports.get(random.below(reports.len()))?.clone();
    change(random, &mut again);
    reports.insert(random.below(reports.len() + 1), again);
    Some(vec![])
}

/// The reports of 1,000 relays with so many links: each relay is linked to the next one, then to the next but one, and so on, round a
/// ring.
pub fn linked(random: &mut Random, links: usize) -> Vec<LinkReport> {
    let mut sees = vec![BTreeSet::new(); 1000];
    for link in 0..links {
        let (a, step) = (link % 1000, 1 + link / 1000);
        let b = (a + step) % 1000;
        sees[a].insert(b as u16);
        sees[b].insert(a as u16);
    }
    let report = |(sees, relay): (BTreeSet<u16>, u16)| LinkReport { relay, serial: serial(random), sees: Vec::from_iter(sees) };
    sees.into_iter().zip(0..).map(report).collect()
}

/// The text of a set that is spoilt so, with its n.
pub fn spoilt_set(random: &mut Random, spoil: SpoilSet, mut n: u16, mut reports: Vec<LinkReport>) -> Option<(u16, Vec<u8>)> {
    let end = spoil(random, &mut n, &mut reports)?;
    Some((n, [text(&reports), end].concat()))
}

/// The reports of some network, at times spoilt, as a text with its n.
pub fn any_set(random: &mut Random, most: usize) -> (u16, Vec<u8>) {
    let net = any(random, most);
    let reports = sent(random, &net).1;
    let (_, _, spoil) = *random.pick(&SETS);
    match random.below(4) {
        0 => spoilt_set(random, spoil, net.n, reports.clone()).unwrap_or((net.n, text(&reports))),
        1 if !reports.is_empty() => (net.n, [bad_line(random, &reports[0]).1, text(&reports)].concat()),
        _ => (net.n, text(&reports)),
    }
}
