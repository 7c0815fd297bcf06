//! Withdrawn relays, worked out by hand from #105 of document 02; a network with them against the one that is left without them; the
//! longest texts and lists; and the two ways of reading out lines.

use crate::examples::{kept, mesh, net, read_alike, refused};
use crate::forests::{cut, order, split};
use crate::generate::{any, scratch};
use crate::outs::{OUTS, with_outs};
use crate::plan::plan;
use crate::random::Random;
use crate::sweep::{Wish, route, routes};
use crate::swift_text;
use crate::table::{Network, Refusal, check};
use crate::text::{read, read_whole, text, write};
use crate::verify::{Fault, verify};

/// A network without some of its relays.
fn without(mut net: Network, relays: &[u16]) -> Network {
    relays.iter().for_each(|&relay| net.states[usize::from(relay)] = 0);
    net
}

#[test]
fn mesh_without_2() {
    let net = without(mesh(), &[2]);
    let (mut relays, mut places, mut forests, mut marks) = ([9; 6], [9; 6], [9; 8], [9; 8]);
    assert_eq!(order(&net, &mut relays, &mut places), Ok(()));
    assert_eq!((relays, places), ([1, 0, 3, 4, 9, 9], [2, 1, 0, 3, 4, 9]));
    assert_eq!((split(&net, &mut forests), forests), (Ok(1), [1, 0, 0, 1, 0, 0, 1, 9]));
    assert_eq!((cut(&net, 1, &mut marks), marks), (Ok(3), [1, 0, 0, 1, 0, 0, 1, 9]));
    assert_eq!(routes(&net, Wish { k: 1, from: 4, to: 1 }), Some(vec![vec![4, 3, 1]]));
    assert_eq!(routes(&net, Wish { k: 2, from: 4, to: 1 }), None);
    let text = text(&net);
    assert!(text.ends_with("(link 3 4)\n(out 2)\n(end)\n"));
    let planned = |wish: &str| plan(format!("(want {wish})\n{text}").as_bytes());
    assert_eq!(planned("4 1 1"), "(sheet (from 4) (to 1) (k 1))\n(route 4 3 1)\n(over 6 3)\n(kept 3)\n(end)\n");
    assert_eq!(
        ["4 2 1", "2 4 1", "4 1 2", "2 2 1", "5 2 1", "4 2 33"].map(planned),
        [17, 17, 13, 11, 10, 9].map(|number| format!("(refused {number} 0)\n"))
    );
    let list = "(lease (k 1))\n(keep 0 0 1)\n(idle 1 0 2)\n(idle 2 1 2)\n(keep 3 1 3)\n(idle 4 2 3)\n(idle 5 2 4)\n(keep 6 3 4)\n\
                (kept 3)\n(dropped 0)\n(withdrawn 4)\n(end)\n";
    assert_eq!(kept("1", &text), list);
    let sheet = |routes: &str, kept: u16| {
        verify(&net, format!("(sheet (from 4) (to 1) (k 1))\n{routes}(kept {kept})\n(end)\n").as_bytes())
    };
    assert_eq!(sheet("(route 4 3 1)\n(over 6 3)\n", 3), Ok(vec![]));
    assert_eq!(sheet("(route 4 3 1)\n(over 6 3)\n", 4), Ok(vec![Fault::Kept]));
    assert_eq!(sheet("(route 4 2 1)\n(over 5 2)\n", 3), Ok(vec![Fault::Withdrawn]));
}

/// 17 comes before 12, and 12 before 13; after both 17 and 12 nothing is changed.
#[test]
fn withdrawn_ends() {
    let net = without(mesh(), &[2]);
    let ask = |k, from, to, entries: usize| {
        let (mut counts, mut relays, mut scratch) = (vec![9; entries], vec![9; 7], vec![9; 10]);
        let outcome = route(&net, Wish { k, from, to }, &mut counts, &mut relays, &mut scratch);
        assert_eq!((counts, relays), (vec![9; entries], vec![9; 7]));
        (outcome, scratch == [0; 10])
    };
    assert_eq!(ask(2, 4, 2, 1), (refused(17, 0), false));
    assert_eq!(ask(2, 4, 1, 1), (refused(12, 0), false));
    assert_eq!(ask(2, 4, 1, 2), (refused(13, 0), true));
    assert_eq!(ask(33, 4, 2, 2), (refused(9, 0), false));
    assert_eq!(ask(2, 2, 5, 2), (refused(10, 0), false));
    assert_eq!(ask(2, 2, 2, 2), (refused(11, 0), false));
}

#[test]
fn all_withdrawn() {
    let net = without(mesh(), &[0, 1, 2, 3, 4]);
    let (mut relays, mut places, mut forests) = ([9; 5], [9; 6], [9; 7]);
    assert_eq!(order(&net, &mut relays, &mut places), Ok(()));
    assert_eq!((relays, places), ([9; 5], [0, 0, 0, 0, 0, 9]));
    assert_eq!((split(&net, &mut forests), forests), (Ok(0), [0; 7]));
    forests = [9; 7];
    assert_eq!((cut(&net, 32, &mut forests), forests), (Ok(0), [0; 7]));
    assert_eq!(order(&net, &mut relays[..4], &mut places), refused(12, 0));
    assert_eq!(order(&net, &mut relays, &mut places[..4]), refused(12, 0));
    assert!(kept("2", &text(&net)).ends_with("(idle 6 3 4)\n(kept 0)\n(dropped 0)\n(withdrawn 7)\n(end)\n"));
}

/// The busiest relay is that with the most links to relays in service, and the rest of the order goes by these as well.
#[test]
fn busiest_in_service() {
    let star = net(6, &[(0, 1), (0, 2), (0, 3), (0, 4), (4, 5), (3, 5)]);
    let ordered = |net: &Network| {
        let (mut relays, mut places) = (vec![9; 6], vec![9; 6]);
        order(net, &mut relays, &mut places).unwrap();
        (relays, places)
    };
    assert_eq!(ordered(&star), (vec![0, 1, 2, 3, 4, 5], vec![1, 2, 3, 4, 5, 6]));
    assert_eq!(ordered(&without(star.clone(), &[0])), (vec![5, 3, 4, 1, 2, 9], vec![0, 4, 5, 2, 3, 1]));
    assert_eq!(ordered(&without(star.clone(), &[1, 2])), (vec![0, 3, 4, 5, 9, 9], vec![1, 0, 0, 2, 3, 4]));
    assert_eq!(ordered(&without(star, &[0, 5])), (vec![1, 2, 3, 4, 9, 9], vec![0, 1, 2, 3, 4, 0]));
}

#[test]
fn refused_states() {
    let with = |states: &[u16]| check(&Network { states: states.to_vec(), ..mesh() });
    assert_eq!(with(&[1, 1, 0, 1, 0]), Ok(()));
    let bad: [&[u16]; 7] = [&[], &[1; 4], &[1; 6], &[0; 6], &[1, 1, 2, 1, 1], &[65535, 0, 0, 0, 0], &[1, 1, 1, 1, 257]];
    bad.into_iter().for_each(|states| assert_eq!(with(states), refused(16, 0)));
    let mut both = net(4, &[(0, 1), (2, 2)]);
    both.states[0] = 2;
    assert_eq!(check(&both), refused(6, 1));
    (both.highs[1], both.states[0]) = (3, 1);
    both.states.pop();
    assert_eq!(check(&both), refused(16, 0));
    assert_eq!(cut(&both, 33, &mut []), refused(16, 0));
    assert_eq!(verify(&both, b""), refused(16, 0));
}

/// What Read says of three relays, a link and what stands behind that, with room for so many links and states; and the states.
fn behind(lines: &str, rooms: (usize, usize)) -> (Result<(u16, u16), Refusal>, Vec<u16>) {
    let (mut lows, mut highs, mut states) = (vec![9; rooms.0], vec![9; rooms.0], vec![9; rooms.1]);
    let text = format!("(net (relays 3) (links 1))\n(link 0 2)\n{lines}");
    let outcome = read(text.as_bytes(), &mut lows, &mut highs, &mut states);
    let high = |at: usize| if at == 0 && outcome.is_ok() { 2 } else { 0 };
    assert_eq!((lows, highs), (vec![0; rooms.0], (0..rooms.0).map(high).collect()));
    (outcome, states)
}

#[test]
fn out_lines() {
    assert_eq!(behind("(end)\n", (1, 3)), (Ok((3, 1)), vec![1, 1, 1]));
    assert_eq!(behind("(out 1)\n(end)\n", (1, 5)), (Ok((3, 1)), vec![1, 0, 1, 0, 0]));
    assert_eq!(behind("(out 0)\n(out 1)\n(out 2)\n(end)\n", (4, 3)), (Ok((3, 1)), vec![0, 0, 0]));
    assert_eq!(behind("(end)\n", (1, 2)), (refused(8, 0), vec![0, 0]));
    assert_eq!(behind("(end)\n", (0, 3)), (refused(8, 0), vec![0, 0, 0]));
    let at = |lines: &str, number, place| assert_eq!(behind(lines, (2, 4)), (refused(number, place), vec![0; 4]), "{lines}");
    at("(out 3)\n(end)\n", 16, 0);
    at("(out 9999)\n", 16, 0);
    at("(out 1)\n(out 1)\n(end)\n", 16, 0);
    at("(out 2)\n(out 0)\n(and)\n", 16, 0);
    at("(out 0)\n(out 2)\n(out 1)\n(end)\n", 16, 0);
    at("(out 3)", 2, 45);
    at("(out 3", 2, 44);
    at("(out 3]\n", 2, 44);
    at("(out 3) \n", 2, 45);
    at("(out 01)\n", 2, 44);
    at("(out 10000)\n", 2, 47);
    at("(out )\n", 2, 43);
    at("(out)\n", 2, 42);
    at("(off 1)\n", 2, 40);
    at("(opt 1)\n", 2, 40);
    at("(ou\n", 2, 41);
    at("(link 0 1)\n", 2, 39);
    at("(Out 1)\n", 2, 39);
    at("[out 1)\n", 2, 38);
    at("(", 2, 39);
    at("(o", 2, 40);
    at("(e", 2, 40);
    at("(eut 1)\n", 2, 40);
    at("", 2, 38);
    at("(out 1)\n", 2, 46);
    at("(out 1)\n(out 2)\n(end)", 2, 59);
    at("(out 1)\n(end)\n(out 2)\n", 2, 52);
}

/// Out lines that are changed so are accepted, refused with 16, or depart.
#[test]
fn changed_out_lines() {
    let random = &mut Random::new(5);
    for _ in 0..200 {
        let net = any(random, 30);
        for (at, (made, change)) in OUTS.into_iter().enumerate() {
            let outcome = read_whole(with_outs(random, &net, change).as_bytes());
            let due = [0, 16, 2][usize::from(at > 2) + usize::from(at > 7)];
            assert_eq!(outcome.map_or_else(|refusal| refusal.number, |_| 0), due, "{made}: {net:?}");
        }
    }
}

/// The network that is left without the withdrawn relays, numbered anew, with the new number of each relay and the links that are left.
fn left(net: &Network) -> (Network, Vec<usize>) {
    let new = |relay: u16| net.in_service().iter().position(|&other| other == relay).expect("in service") as u16;
    let links: Vec<usize> = (0..net.lows.len()).filter(|&link| net.whole(link)).collect();
    let ends = |list: &[u16]| links.iter().map(|&link| new(list[link])).collect();
    (Network::serving(net.in_service().len() as u16, ends(&net.lows), ends(&net.highs)), links)
}

/// A network with withdrawn relays is that which is left without them.
#[test]
fn as_if_they_were_not_there() {
    let random = &mut Random::new(7);
    let mut met = [0; 2];
    for _ in 0..1500 {
        let net = any(random, 60);
        let (less, links) = left(&net);
        let old = net.in_service();
        let n = usize::from(net.n);
        if old.is_empty() {
            continue;
        }
        let (mut relays, mut places, mut forests) = (vec![7777; n], vec![7777; n], vec![7777; net.lows.len()]);
        let (mut less_relays, mut less_places, mut less_forests) = (vec![0; old.len()], vec![0; old.len()], vec![0; links.len()]);
        order(&net, &mut relays, &mut places).unwrap();
        order(&less, &mut less_relays, &mut less_places).unwrap();
        let named: Vec<u16> = less_relays.iter().map(|&relay| old[usize::from(relay)]).collect();
        assert_eq!((&relays[..old.len()], &relays[old.len()..]), (&named[..], &vec![7777; n - old.len()][..]));
        let placed: Vec<u16> = old.iter().map(|&relay| places[usize::from(relay)]).collect();
        assert_eq!(placed, less_places);
        assert!((0..net.n).all(|relay| net.serves(relay) || places[usize::from(relay)] == 0));
        assert_eq!(split(&net, &mut forests), split(&less, &mut less_forests));
        assert_eq!(links.iter().map(|&link| forests[link]).collect::<Vec<_>>(), less_forests);
        assert!((0..forests.len()).all(|link| net.whole(link) || forests[link] == 0));
        if old.len() > 1 {
            let (from, to) = (random.below(old.len()) as u16, random.below(old.len() - 1) as u16);
            let (k, to) = (random.within(1, 3) as u16, if to < from { to } else { to + 1 });
            let found = routes(&net, Wish { k, from: old[usize::from(from)], to: old[usize::from(to)] });
            let named = |route: Vec<u16>| route.into_iter().map(|relay| old[usize::from(relay)]).collect();
            let due: Option<Vec<Vec<u16>>> = routes(&less, Wish { k, from, to }).map(|all| all.into_iter().map(named).collect());
            assert_eq!(found, due);
            met[usize::from(found.is_some())] += usize::from(old.len() < n);
        }
    }
    assert!(met.iter().all(|&times| times > 50), "{met:?}");
}

/// A path and a full network of the last 77, all numbers with three digits: 3,000 links.
fn longest() -> Network {
    let mut links: Vec<(u16, u16)> = (101..175).map(|b| (b - 1, b)).collect();
    links.extend((923..1000).flat_map(|b| (923..b).map(move |a| (a, b))));
    net(1000, &links)
}

#[test]
fn longest_texts() {
    let all = Vec::from_iter(0..1000);
    assert_eq!((text(&longest()).len(), text(&without(longest(), &all)).len()), (45_039, 54_929));
    let mut buffer = vec![0; 54_929];
    assert_eq!(write(&without(longest(), &all), &mut buffer), Ok(54_929));
    assert_eq!(read_whole(&buffer), Ok(without(longest(), &all)));
    assert!(
        kept("16", &text(&without(longest(), &all)))
            .ends_with("(idle 2999 998 999)\n(kept 0)\n(dropped 0)\n(withdrawn 3000)\n(end)\n")
    );
    let list = kept("16", &text(&longest()));
    assert!(list.ends_with("\n(kept 1170)\n(dropped 1830)\n(withdrawn 0)\n(end)\n"));
    assert_eq!((list.len(), list.lines().filter(|line| line.starts_with("(keep")).count()), (58_952, 1170));
}

/// The longest list has a thousand links of each kind: full networks of 55 and of 15 of which a cut down to 10 drops 990 and 10, a
/// path, and two withdrawn relays with 500 links each.
#[test]
fn longest_list() {
    let full = |first: u16, count: u16| (first..first + count).flat_map(move |b| (first..b).map(move |a| (a, b)));
    let mut links: Vec<(u16, u16)> = (102..602).flat_map(|b| [(100, b), (101, b)]).collect();
    links.extend(full(102, 55).chain(full(200, 15)).chain((301..711).map(|b| (b - 1, b))));
    let list = kept("10", &text(&without(net(1000, &links), &[100, 101])));
    assert!(list.ends_with("\n(kept 1000)\n(dropped 1000)\n(withdrawn 1000)\n(end)\n"));
    assert_eq!(list.len(), 58_955);
}

#[test]
fn two_ways_read_out_lines() {
    let random = &mut Random::new(2);
    let mut said = [0; 17];
    for _ in 0..4000 {
        let net = any(random, 40);
        let mut text = with_outs(random, &net, random_change).into_bytes();
        (0..random.below(2)).for_each(|_| scratch(random, &mut text));
        said[read_alike(random, &net, &text, read, swift_text::read)] += 1;
    }
    assert!([0, 2, 8, 16].iter().all(|&number| said[number] > 100), "{said:?}");
}

fn random_change(random: &mut Random, n: u16, outs: &mut Vec<String>) {
    random.pick(&OUTS).1(random, n, outs);
}
