//! Sets of link reports (document 02, #108), as the relays of a network send them, and two reports of one relay.

use crate::random::Random;
use crate::reports::LinkReport;
use crate::table::Network;
use std::collections::BTreeSet;

/// What the relays in service of a table, accepted or not, say that they see: the other end of each of their links. The serials are any,
/// and the relays rise.
pub fn plain(random: &mut Random, net: &Network) -> Vec<LinkReport> {
    let mut sees = vec![BTreeSet::new(); 1 + usize::from(u16::MAX)];
    for (a, b) in net.links() {
        sees[usize::from(a)].insert(b);
        sees[usize::from(b)].insert(a);
    }
    let serving = net.states.iter().zip(0..).filter(|state| *state.0 == 1);
    let mut report =
        |relay: u16| LinkReport { relay, serial: serial(random), sees: sees[usize::from(relay)].iter().copied().collect() };
    serving.map(|(_, relay)| report(relay)).collect()
}

/// The network that they make: the links with both ends in service, by low and then by high number.
pub fn reported(net: &Network) -> Network {
    let mut links: Vec<(u16, u16)> = net.links().filter(|&(a, b)| net.serves(a) && net.serves(b)).collect();
    links.sort();
    let (lows, highs) = links.into_iter().unzip();
    Network { n: net.n, lows, highs, states: net.states.clone() }
}

/// The text of a set.
pub fn text(reports: &[LinkReport]) -> Vec<u8> {
    reports.iter().map(LinkReport::text).collect::<String>().into_bytes()
}

/// Serials at which a program may go wrong: about the ends of the range and its middle, and where a digit more begins.
pub const SERIALS: [u32; 14] = [
    0,
    1,
    9,
    10,
    65_535,
    65_536,
    999_999_999,
    1_000_000_000,
    2_147_483_646,
    2_147_483_647,
    2_147_483_648,
    2_147_483_649,
    4_294_967_294,
    4_294_967_295,
];

/// A serial of some number of digits, half of the time one of those.
pub fn serial(random: &mut Random) -> u32 {
    if random.once_in(2) { *random.pick(&SERIALS) } else { (random.draw() as u32) >> random.below(32) }
}

/// Other reports of the same network; n goes with them.
pub type Style = fn(&mut Random, u16, &mut Vec<LinkReport>);

/// Orders of the lines, serials, and sightings that make no link.
pub const STYLES: [(&str, Style); 10] = [
    ("in rising order", |_, _, _| ()),
    ("in falling order", |_, _, reports| reports.reverse()),
    ("in any order", |random, _, reports| random.shuffle(reports)),
    ("all serials alike", |random, _, reports| {
        let serial = serial(random);
        reports.iter_mut().for_each(|report| report.serial = serial);
    }),
    ("serials about the ends of their range", |random, _, reports| {
        reports.iter_mut().for_each(|report| report.serial = *random.pick(&[0, 1, u32::MAX - 1, u32::MAX]))
    }),
    ("links seen from one end", |random, n, reports| {
        (0..random.within(1, 20)).for_each(|_| one_sided(random, n, reports));
        random.shuffle(reports);
    }),
    ("relays seen that send no report", |random, n, reports| {
        let silent = silent(n, reports);
        for report in reports {
            let some = if random.once_in(3) { silent.len().min(5) } else { 0 };
            (0..some).for_each(|_| see(report, *random.pick(&silent)));
        }
    }),
    ("all relays seen that send no report", |random, n, reports| {
        let silent = silent(n, reports);
        let some = random.within(1, 8);
        reports.iter_mut().take(some).for_each(|report| silent.iter().for_each(|&relay| see(report, relay)));
        random.shuffle(reports);
    }),
    ("some see every higher relay", |random, n, reports| all_of_a_side(random, n, reports, |relay, other| other > relay)),
    ("some see every lower relay", |random, n, reports| all_of_a_side(random, n, reports, |relay, other| other < relay)),
];

/// The relays below n that send no report.
fn silent(n: u16, reports: &[LinkReport]) -> Vec<u16> {
    let reporting: BTreeSet<u16> = reports.iter().map(|report| report.relay).collect();
    (0..n).filter(|relay| !reporting.contains(relay)).collect()
}

/// One relay more is seen.
pub fn see(report: &mut LinkReport, relay: u16) {
    if let Err(at) = report.sees.binary_search(&relay) {
        report.sees.insert(at, relay);
    }
}

/// A relay that reports sees another that does not see it, if there is such a one.
fn one_sided(random: &mut Random, n: u16, reports: &mut [LinkReport]) {
    let (at, other) = (random.below(reports.len()), random.below(usize::from(n)) as u16);
    let Some(LinkReport { relay, .. }) = reports.get(at) else { return };
    let back = reports.iter().any(|report| report.relay == other && report.sees.contains(relay));
    if *relay != other && !back {
        see(&mut reports[at], other);
    }
}

/// Some relays see every other on one side of them that does not see them back.
fn all_of_a_side(random: &mut Random, n: u16, reports: &mut [LinkReport], side: fn(u16, u16) -> bool) {
    for _ in 0..random.within(1, 12) {
        let Some(LinkReport { relay, .. }) = reports.get(random.below(reports.len())) else { return };
        let relay = *relay;
        let back: BTreeSet<u16> = reports.iter().filter(|other| other.sees.contains(&relay)).map(|other| other.relay).collect();
        let report = reports.iter_mut().find(|report| report.relay == relay).expect("a report");
        (0..n).filter(|&other| side(relay, other) && !back.contains(&other)).for_each(|other| see(report, other));
    }
}

/// The reports of a network in some style, and which.
pub fn sent(random: &mut Random, net: &Network) -> (&'static str, Vec<LinkReport>) {
    let (style, make) = *random.pick(&STYLES);
    let mut reports = plain(random, net);
    make(random, net.n, &mut reports);
    (style, reports)
}

/// The reports of 1,000 relays that each see every other one that `sees` tells.
pub fn crowd(random: &mut Random, sees: impl Fn(u16, u16) -> bool) -> Vec<LinkReport> {
    let others = |relay| (0..1000).filter(|&other| other != relay && sees(relay, other)).collect();
    (0..1000).map(|relay| LinkReport { relay, serial: serial(random), sees: others(relay) }).collect()
}

/// How the second of two reports of a relay differs from the first.
pub type Later = fn(&mut Random, &mut LinkReport);

/// The second report's serial, so much later than the first's; then other differences.
pub const LATER: [(&str, Later); 12] = [
    ("equal bytes", |_, _| ()),
    ("equal serials, other neighbours", |random, report| other_sees(random, report)),
    ("a serial 1 later", |_, report| later(report, 1)),
    ("a serial 2,147,483,646 later", |_, report| later(report, 2_147_483_646)),
    ("a serial 2,147,483,647 later", |_, report| later(report, 2_147_483_647)),
    ("a serial 2,147,483,648 later", |_, report| later(report, 2_147_483_648)),
    ("a serial 2,147,483,649 later", |_, report| later(report, 2_147_483_649)),
    ("a serial 1 earlier", |_, report| later(report, u32::MAX)),
    ("any serial, equal neighbours", |random, report| report.serial = serial(random)),
    ("any serial, other neighbours", |random, report| {
        report.serial = serial(random);
        other_sees(random, report);
    }),
    ("a serial that ends in the same 16 bits", |random, report| later(report, (random.within(1, 65_535) as u32) << 16)),
    ("another relay", |random, report| {
        report.relay = (report.relay + random.within(1, 999) as u16) % 1000;
        report.sees.retain(|&relay| relay != report.relay);
        if random.once_in(2) {
            report.serial = serial(random);
        }
    }),
];

fn later(report: &mut LinkReport, by: u32) {
    report.serial = report.serial.wrapping_add(by);
}

/// A neighbour more or less.
fn other_sees(random: &mut Random, report: &mut LinkReport) {
    let other = ((usize::from(report.relay) + random.within(1, 999)) % 1000) as u16;
    match report.sees.binary_search(&other) {
        Ok(at) => drop(report.sees.remove(at)),
        Err(at) => report.sees.insert(at, other),
    }
}

/// A report to begin with, of no network: a few neighbours, or all of them.
pub fn any_report(random: &mut Random) -> LinkReport {
    let (relay, some) = (random.below(1000) as u16, *random.pick(&[0, 1, 2, 3, 5, 8, 40]));
    let mut sees: BTreeSet<u16> = (0..some).map(|_| random.below(1000) as u16).collect();
    if random.once_in(40) {
        sees = (0..1000).collect();
    }
    sees.remove(&relay);
    LinkReport { relay, serial: serial(random), sees: sees.into_iter().collect() }
}
