//! Sets of link reports worked out by hand from #108 of document 02, each style and each way of spoiling one; and the second version
//! against a matrix of who sees whom and against the fast program.

use crate::examples::{mesh, net, refused};
use crate::generate::{any, scratch};
use crate::random::Random;
use crate::reports::{LinkReport, network, read_one, reports};
use crate::sets::{STYLES, crowd, plain, reported, sent, text};
use crate::spoilt_sets::{SETS, any_set, bad_lines, linked, spoilt_set};
use crate::swift_reports;
use crate::table::{Network, Refusal, check};

/// The network of a set, with room for any.
fn of(n: u16, text: &str) -> Result<Network, Refusal> {
    network(n, text.as_bytes(), 3000, 1000)
}

/// A network with these states.
fn with(states: &[u16], links: &[(u16, u16)]) -> Network {
    Network { states: states.to_vec(), ..net(states.len() as u16, links) }
}

#[test]
fn sets_that_are_accepted() {
    let set = "(report 4 1 (sees 2 3))\n(report 2 7 (sees 0 1 3 4))\n(report 3 0 (sees 1 2))\n(report 0 0 (sees 2))\n";
    let due = with(&[1, 0, 1, 1, 1], &[(0, 2), (2, 3), (2, 4)]);
    let mut lines: Vec<&str> = set.split_inclusive('\n').collect();
    for _ in 0..4 {
        lines.rotate_left(1);
        assert_eq!(of(5, &lines.concat()), Ok(due.clone()));
        lines.swap(0, 1);
        assert_eq!(of(5, &lines.concat()), Ok(due.clone()));
    }
    // a neighbour that sends no report, one that sees none, a link seen from its low end, from its high end and from both
    assert_eq!(of(3, "(report 0 5 (sees 1 2))\n"), Ok(with(&[1, 0, 0], &[])));
    assert_eq!(of(2, "(report 1 0 (sees))\n"), Ok(with(&[0, 1], &[])));
    assert_eq!(of(2, "(report 1 0 (sees))\n(report 0 0 (sees))\n"), Ok(with(&[1, 1], &[])));
    assert_eq!(of(2, "(report 1 0 (sees))\n(report 0 0 (sees 1))\n"), Ok(with(&[1, 1], &[])));
    assert_eq!(of(2, "(report 1 0 (sees 0))\n(report 0 0 (sees))\n"), Ok(with(&[1, 1], &[])));
    assert_eq!(of(2, "(report 1 0 (sees 0))\n(report 0 0 (sees 1))\n"), Ok(with(&[1, 1], &[(0, 1)])));
    // no report at all
    assert_eq!(of(1, ""), Ok(with(&[0], &[])));
    assert_eq!(of(1000, ""), Ok(with(&[0; 1000], &[])));
    // serials are not compared
    assert_eq!(of(2, "(report 1 4294967295 (sees 0))\n(report 0 2147483647 (sees 1))\n"), Ok(with(&[1, 1], &[(0, 1)])));
    assert_eq!(
        of(1000, "(report 999 0 (sees 998))\n(report 998 0 (sees 999))\n").map(|net| net.links().collect()),
        Ok(vec![(998, 999)])
    );
    let mesh_set = "(report 0 1 (sees 1 2))\n(report 1 1 (sees 0 2 3))\n(report 2 1 (sees 0 1 3 4))\n";
    assert_eq!(of(5, &format!("{mesh_set}(report 4 1 (sees 2 3))\n(report 3 1 (sees 1 2 4))\n")), Ok(mesh()));
}

/// Of 12 relays all see each other but 10 and 11: by low and then by high number, as numbers and not as words or pair numbers.
#[test]
fn rising_links() {
    let set = text(&crowd(&mut Random::new(1), |a, b| a < 12 && b < 12 && a.min(b) < 10));
    let links: Vec<(u16, u16)> = network(1000, &set, 3000, 1000).unwrap().links().collect();
    let due: Vec<(u16, u16)> = (0..10).flat_map(|a| (a + 1..12).map(move |b| (a, b))).collect();
    assert_eq!(links, due);
}

#[test]
fn which_refusal_is_first() {
    let (good, far) = ("(report 4 1 (sees 2))\n", "(report 900 0 (sees))\n");
    for n in [0, 1001, 9999, 65535] {
        for set in ["", good, "(report", &[good, good].concat(), far] {
            assert_eq!(of(n, set), refused(3, 0), "{n} {set}");
        }
    }
    let at = |set: &[&str], number| {
        assert_eq!(of(5, &set.concat()), refused(number, 0), "{set:?}");
        assert_eq!(network(5, set.concat().as_bytes(), 0, 0), refused(number, 0), "{set:?}, no room");
    };
    at(&[good, good, far, "(report 3 0 (sees)\n"], 19);
    at(&[good, good, far, "(report 3 0 (sees))"], 19);
    at(&[good, good, far, "\n"], 19);
    at(&["\n", good], 19);
    at(&[far, "(report 3 0 (sees 3))\n"], 19);
    at(&["(report 3 4294967296 (sees))\n", good], 19);
    at(&["(report 1000 0 (sees))\n"], 19);
    at(&["(report 0 0 (sees 1000))\n"], 19);
    at(&[good, good], 20);
    at(&[good, "(report 4 2 (sees 2))\n"], 20);
    at(&[good, "(report 4 2147483649 (sees))\n"], 20);
    at(&[good, "(report 3 1 (sees))\n", good], 20);
    at(&[far, good, good], 20);
    at(&[far, far], 20);
    at(&[far], 5);
    at(&["(report 5 1 (sees))\n"], 5);
    at(&["(report 4 1 (sees 5))\n"], 5);
    at(&["(report 4 1 (sees 0 999))\n", "(report 0 1 (sees 4))\n"], 5);
    assert_eq!(of(999, "(report 4 1 (sees 999))\n"), refused(5, 0));
    assert!(of(1000, "(report 4 1 (sees 999))\n").is_ok());
}

/// The answer and the lists: zeros behind what is read, and zeros alone after a refusal; 8 for each list, and 4 before it.
#[test]
fn lists() {
    let with = |n: u16, text: &[u8], rooms: [usize; 3]| {
        let [mut lows, mut highs, mut states] = rooms.map(|room| vec![9; room]);
        let outcome = reports(n, text, &mut lows, &mut highs, &mut states);
        (outcome, [lows, highs, states])
    };
    let zeros = |rooms: [usize; 3]| rooms.map(|room| vec![0; room]);
    let set = b"(report 3 0 (sees 2))\n(report 2 0 (sees 0 1 3))\n(report 0 0 (sees 1 2))\n";
    assert_eq!(with(4, set, [2, 2, 4]), (Ok((4, 2)), [vec![0, 2], vec![2, 3], vec![1, 0, 1, 1]]));
    assert_eq!(with(4, set, [3, 4, 6]), (Ok((4, 2)), [vec![0, 2, 0], vec![2, 3, 0, 0], vec![1, 0, 1, 1, 0, 0]]));
    for rooms in [[1, 2, 4], [2, 1, 4], [2, 2, 3], [0, 0, 0], [9, 9, 3], [9, 1, 9]] {
        assert_eq!(with(4, set, rooms), (refused(8, 0), zeros(rooms)));
        assert_eq!(with(0, set, rooms), (refused(3, 0), zeros(rooms)));
        assert_eq!(with(3, set, rooms), (refused(5, 0), zeros(rooms)));
    }
    assert_eq!(with(2, b"", [0, 0, 2]), (Ok((2, 0)), [vec![], vec![], vec![0, 0]]));
    assert_eq!(with(2, b"", [3, 3, 1]), (refused(8, 0), zeros([3, 3, 1])));
    let random = &mut Random::new(2);
    let [most, more] = [3000, 3001].map(|links| text(&linked(random, links)));
    assert_eq!(with(1000, &most, [3000, 3000, 1000]).0, Ok((1000, 3000)));
    assert_eq!(with(1000, &most, [2999, 3000, 1000]), (refused(8, 0), zeros([2999, 3000, 1000])));
    for rooms in [[3001, 3001, 1000], [0, 0, 0], [3000, 2999, 1000], [4000, 4000, 999]] {
        assert_eq!(with(1000, &more, rooms), (refused(4, 0), zeros(rooms)));
    }
    assert_eq!(with(999, &more, [3001, 3001, 1000]), (refused(5, 0), zeros([3001, 3001, 1000])));
}

/// The longest set that no relay sends two reports in: 1,000 relays that all see each other.
#[test]
fn longest() {
    let mut all = crowd(&mut Random::new(3), |_, _| true);
    all.iter_mut().for_each(|report| report.serial = u32::MAX);
    assert_eq!(text(&all).len(), 3_917_000);
    assert_eq!(network(1000, &text(&all), 3000, 1000), refused(4, 0));
    all.push(LinkReport { relay: 7, serial: 0, sees: vec![] });
    assert_eq!(network(1000, &text(&all), 3000, 1000), refused(20, 0));
    all.pop();
    all.iter_mut().for_each(|report| report.sees.retain(|&other| other > report.relay));
    assert_eq!(network(1000, &text(&all), 0, 1000), Ok(net(1000, &[])));
}

/// In each style the reports of a network are its links with both ends in service, and each way of spoiling them has its refusal.
#[test]
fn styles_and_spoilt() {
    let random = &mut Random::new(6);
    let (mut made, mut spoilt) = (0, 0);
    for _ in 0..150 {
        let net = any(random, 40);
        for (style, make) in STYLES {
            let mut reports = plain(random, &net);
            make(random, net.n, &mut reports);
            assert_eq!(network(net.n, &text(&reports), 3000, 1000), Ok(reported(&net)), "{style}");
        }
        for (kind, number, spoil) in SETS {
            made += 1;
            let reports = sent(random, &net).1;
            let Some((n, set)) = spoilt_set(random, spoil, net.n, reports) else { continue };
            let outcome = network(n, &set, 3000, 1000).map_err(|refusal| refusal.number);
            assert_eq!(outcome, Err(number), "{kind}, {n}: {:?}", String::from_utf8_lossy(&set));
            spoilt += 1;
        }
        let mut reports = sent(random, &net).1;
        let Some(last) = reports.pop() else { continue };
        for (kind, spoil) in bad_lines() {
            let Some(line) = spoil(random, &last) else { continue };
            assert_eq!(network(net.n, &[&line, &text(&reports)[..]].concat(), 3000, 1000), refused(19, 0), "{kind}, first");
            assert_eq!(network(net.n, &[&text(&reports)[..], &line].concat(), 3000, 1000), refused(19, 0), "{kind}, last");
        }
    }
    assert!(2 * spoilt > made, "{spoilt} of {made}");
}

/// Another way to a network: line by line into a matrix of who sees whom, with every pair of relays looked at in turn.
fn by_matrix(n: u16, text: &[u8], entries: usize, relays: usize) -> Result<Network, Refusal> {
    if !(1..=1000).contains(&n) {
        return refused(3, 0);
    }
    let (mut sees, mut counts, mut top) = (vec![[false; 1000]; 1000], [0; 1000], 0);
    let mut rest = text;
    while !rest.is_empty() {
        let end = rest.iter().position(|&byte| byte == b'\n').map_or(rest.len(), |at| at + 1);
        let report = read_one(&rest[..end])?;
        counts[usize::from(report.relay)] += 1;
        top = top.max(report.relay);
        for other in report.sees {
            sees[usize::from(report.relay)][usize::from(other)] = true;
            top = top.max(other);
        }
        rest = &rest[end..];
    }
    let size = usize::from(n);
    let pairs = (0..size).flat_map(|a| (a + 1..size).map(move |b| (a, b))).filter(|&(a, b)| sees[a][b] && sees[b][a]);
    let links: Vec<(u16, u16)> = pairs.map(|(a, b)| (a as u16, b as u16)).collect();
    let refusals = [
        (20, counts.iter().any(|&count| count > 1)),
        (5, top >= n && !text.is_empty()),
        (4, links.len() > 3000),
        (8, entries < links.len() || relays < size),
    ];
    match refusals.into_iter().find(|refusal| refusal.1) {
        Some((number, _)) => refused(number, 0),
        None => Ok(Network { states: counts[..size].to_vec(), ..net(n, &links) }),
    }
}

#[test]
fn three_ways_to_a_network() {
    let random = &mut Random::new(4);
    let mut said = [0; 21];
    for _ in 0..6000 {
        let (n, mut set) = any_set(random, 40);
        (0..random.below(2)).for_each(|_| scratch(random, &mut set));
        let (m, states) = network(n, &set, 3000, 1000).map_or((3, n), |net| (net.lows.len(), net.n));
        let rooms = [m, m, usize::from(states)].map(|exact| (exact + random.below(20)).saturating_sub(1));
        let [mut ours, mut theirs] = [7, 9].map(|filler| rooms.map(|room| vec![filler; room]));
        let [lows, highs, states] = &mut ours;
        let outcome = reports(n, &set, lows, highs, states);
        let [lows, highs, states] = &mut theirs;
        assert_eq!(swift_reports::reports(n, &set, lows, highs, states), outcome);
        assert_eq!(ours, theirs);
        let (entries, relays) = (rooms[0].min(rooms[1]), rooms[2]);
        let one = network(n, &set, entries, relays);
        assert_eq!(one, by_matrix(n, &set, entries, relays), "{n}: {:?}", String::from_utf8_lossy(&set));
        assert!(one.is_ok_and(|net| check(&net).is_ok()) || outcome.is_err());
        said[outcome.map_or_else(|refusal| refusal.number as usize, |_| 0)] += 1;
    }
    assert!([0, 3, 4, 5, 8, 19, 20].iter().all(|&number| said[number] > 50), "{said:?}");
}
