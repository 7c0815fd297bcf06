//! Document 01's examples, P1 to P12 as they are since #104 of document 02, and the others; sheets and kept lists worked out by hand,
//! and the plain program against the fast one and the flow program.

use crate::boundaries::{boundaries, withdrawn};
use crate::forests::{cut, links, order, ordering, split};
use crate::generate::any;
use crate::keep::keep;
use crate::over::{Lent, over, route_links};
use crate::plan::plan;
use crate::random::Random;
use crate::sure::sure;
use crate::sweep::{Wish, routes};
use crate::table::{Network, Refusal, check, pair};
use crate::text::{read, text, write};
use crate::{flow, swift, swift_text};

pub(crate) fn net(n: u16, links: &[(u16, u16)]) -> Network {
    Network::serving(n, links.iter().map(|link| link.0).collect(), links.iter().map(|link| link.1).collect())
}

pub(crate) fn square() -> Network {
    net(4, &[(0, 1), (1, 2), (2, 3), (0, 3)])
}

fn full_four() -> Network {
    net(4, &[(0, 1), (0, 2), (1, 2), (0, 3), (1, 3), (2, 3)])
}

pub(crate) fn mesh() -> Network {
    net(5, &[(0, 1), (0, 2), (1, 2), (1, 3), (2, 3), (2, 4), (3, 4)])
}

/// Relays 4 and 5 have three links each; 0 and 1 are a part by themselves, and so is 2.
fn in_parts() -> Network {
    net(7, &[(0, 1), (3, 4), (3, 5), (4, 5), (4, 6), (5, 6)])
}

pub(crate) fn refused<T>(number: u32, place: usize) -> Result<T, Refusal> {
    Err(Refusal { number, place })
}

type Reads = fn(&[u8], &mut [u16], &mut [u16], &mut [u16]) -> Result<(u16, u16), Refusal>;

/// The number that two ways of reading a text have in common, and with it the whole answer and the lists, with some room about what a
/// network needs.
pub(crate) fn read_alike(random: &mut Random, net: &Network, text: &[u8], one: Reads, other: Reads) -> usize {
    let needs = [net.lows.len(), net.lows.len(), usize::from(net.n)];
    let rooms = needs.map(|exact| (exact + random.below(20)).saturating_sub(1));
    let [mut ours, mut theirs] = [7, 9].map(|filler| rooms.map(|room| vec![filler; room]));
    let [lows, highs, states] = &mut ours;
    let outcome = one(text, lows, highs, states);
    let [lows, highs, states] = &mut theirs;
    assert_eq!(other(text, lows, highs, states), outcome);
    assert_eq!(ours, theirs);
    outcome.map_or_else(|refusal| refusal.number as usize, |_| 0)
}

fn order_and_forests(net: &Network) -> (Vec<u16>, Vec<u16>) {
    let (mut relays, mut places) = (vec![0; usize::from(net.n)], vec![0; usize::from(net.n)]);
    let mut forests = vec![0; net.lows.len()];
    order(net, &mut relays, &mut places).unwrap();
    split(net, &mut forests).unwrap();
    (relays, forests)
}

fn route(net: &Network, from: u16, to: u16, k: u16) -> Option<Vec<Vec<u16>>> {
    routes(net, Wish { k, from, to })
}

#[test]
fn marked() {
    assert_eq!(order_and_forests(&square()), (vec![0, 1, 2, 3], vec![1, 1, 2, 1]));
    assert_eq!(route(&square(), 3, 2, 2), Some(vec![vec![3, 0, 1, 2], vec![3, 2]]));
    assert_eq!(route(&square(), 0, 2, 2), None);
    assert_eq!(route(&full_four(), 3, 2, 3), Some(vec![vec![3, 0, 2], vec![3, 1, 2], vec![3, 2]]));
    assert_eq!(order_and_forests(&mesh()), (vec![2, 0, 1, 3, 4], vec![2, 1, 1, 2, 1, 1, 2]));
    assert_eq!(route(&mesh(), 4, 1, 2), Some(vec![vec![4, 2, 1], vec![4, 3, 1]]));
    assert_eq!(route(&mesh(), 1, 4, 2), Some(vec![vec![1, 2, 4], vec![1, 3, 4]]));
    assert_eq!(route(&mesh(), 4, 1, 1), Some(vec![vec![4, 2, 1]]));
    let mut marks = [9; 7];
    assert_eq!(cut(&mesh(), 1, &mut marks), Ok(4));
    assert_eq!(marks, [0, 1, 1, 0, 1, 1, 0]);
    assert_eq!(cut(&net(1, &[]), 32, &mut []), Ok(0));
    assert_eq!(split(&net(1, &[]), &mut []), Ok(0));
    assert_eq!(route(&net(2, &[]), 0, 1, 1), None);
    assert_eq!((pair(0, 1), pair(998, 999)), (Ok(0), Ok(499_499)));
}

/// The first relay has the most links: one alone, of several the lowest, in another part than relay 0, and relay 0 without links.
#[test]
fn busiest_first() {
    assert_eq!(order_and_forests(&net(4, &[(0, 1), (0, 2), (1, 2), (1, 3)])), (vec![1, 0, 2, 3], vec![1, 2, 1, 1]));
    assert_eq!(order_and_forests(&net(4, &[(0, 1), (1, 2), (2, 3)])), (vec![1, 0, 2, 3], vec![1, 1, 1]));
    assert_eq!(order_and_forests(&in_parts()), (vec![4, 3, 5, 6, 0, 1, 2], vec![1, 1, 2, 1, 1, 2]));
    assert_eq!(order_and_forests(&net(5, &[(3, 4)])), (vec![3, 4, 0, 1, 2], vec![1]));
    assert_eq!(order_and_forests(&net(3, &[])), (vec![0, 1, 2], vec![]));
    assert_eq!(route(&in_parts(), 6, 3, 2), Some(vec![vec![6, 4, 3], vec![6, 5, 3]]));
    assert_eq!(route(&in_parts(), 1, 0, 1), Some(vec![vec![1, 0]]));
    assert_eq!(route(&in_parts(), 0, 6, 1), None);
    let six = net(6, &[(0, 1), (0, 2), (1, 2), (0, 3), (1, 3), (0, 4), (1, 5), (2, 5)]);
    assert_eq!(order_and_forests(&six), (vec![0, 1, 2, 3, 5, 4], vec![1, 1, 2, 1, 2, 1, 1, 2]));
    assert_eq!(route(&six, 5, 3, 2), Some(vec![vec![5, 2, 0, 3], vec![5, 1, 3]]));
}

#[test]
fn others() {
    assert_eq!(check(&net(0, &[])), refused(3, 0));
    assert_eq!(check(&net(1001, &[])), refused(3, 0));
    assert_eq!(check(&net(1000, &[])), Ok(()));
    assert_eq!(check(&net(1000, &[(0, 1); 3001])), refused(4, 0));
    let ask = |text: &str| {
        let (mut lows, mut highs, mut states) = ([7], [7], [7; 4]);
        let outcome = read(text.as_bytes(), &mut lows, &mut highs, &mut states);
        assert_eq!((lows, highs, states), ([0], [0], [0; 4]));
        outcome
    };
    assert_eq!(ask("(net (relays 1000) (links 3001))\n"), refused(4, 0));
    assert_eq!(cut(&net(1, &[]), 0, &mut []), refused(9, 0));
    assert_eq!(cut(&net(1, &[]), 33, &mut []), refused(9, 0));
    assert_eq!(ask("(net (relays 4) (links 1))\n(link 7 7)\n"), refused(5, 0));
    assert_eq!(ask("(net (relays 4) (links 1))\n(link 2 2)\n"), refused(6, 0));
    assert_eq!(ask("(net (relays 04"), refused(2, 14));
    assert_eq!(ask(""), refused(2, 0));
}

/// What the planner prints for this wish and this network.
fn planned(from: u16, to: u16, k: u16, net: Network) -> String {
    plan(format!("(want {from} {to} {k})\n{}", text(&net)).as_bytes())
}

#[test]
fn sheets() {
    let sheet = |from: u16, to: u16, k: u16, routes: &str, kept: u16| {
        format!("(sheet (from {from}) (to {to}) (k {k}))\n{routes}\n(kept {kept})\n(end)\n")
    };
    let routes = "(route 4 2 1)\n(over 5 2)\n(route 4 3 1)\n(over 6 3)";
    assert_eq!(planned(4, 1, 2, mesh()), sheet(4, 1, 2, routes, 7));
    let routes = "(route 1 2 4)\n(over 2 5)\n(route 1 3 4)\n(over 3 6)";
    assert_eq!(planned(1, 4, 2, mesh()), sheet(1, 4, 2, routes, 7));
    assert_eq!(planned(4, 1, 1, mesh()), sheet(4, 1, 1, "(route 4 2 1)\n(over 5 2)", 4));
    let routes = "(route 3 0 1 2)\n(over 3 0 1)\n(route 3 2)\n(over 2)";
    assert_eq!(planned(3, 2, 2, square()), sheet(3, 2, 2, routes, 4));
    let routes = "(route 3 0 2)\n(over 2 1)\n(route 3 1 2)\n(over 4 3)\n(route 3 2)\n(over 5)";
    let rising = net(4, &[(0, 1), (0, 2), (0, 3), (1, 2), (1, 3), (2, 3)]);
    assert_eq!(planned(3, 2, 3, rising), sheet(3, 2, 3, routes, 6));
    assert_eq!(planned(0, 2, 2, square()), "(refused 13 0)\n");
    let routes = "(route 6 4 3)\n(over 4 1)\n(route 6 5 3)\n(over 5 2)";
    assert_eq!(planned(6, 3, 2, in_parts()), sheet(6, 3, 2, routes, 6));
}

#[test]
fn routes_with_links() {
    let ask = |links: usize, scratch: usize, to: u16| {
        let mut lent = Lent { counts: vec![9; 3], relays: vec![9; 8], links: vec![9; links], scratch: vec![9; scratch] };
        let outcome = route_links(&square(), Wish { k: 2, from: 3, to }, &mut lent);
        (outcome, lent.counts, lent.relays, lent.links, lent.scratch)
    };
    for links in 4..6 {
        let over = [3, 0, 1, 2, 9][..links].to_vec();
        assert_eq!(ask(links, 9, 2), (Ok(6), vec![4, 2, 9], vec![3, 0, 1, 2, 3, 2, 9, 9], over, vec![0; 9]));
    }
    let left = |refusal, links, scratch, to, after| {
        assert_eq!(ask(links, scratch, to), (refused(refusal, 0), vec![9; 3], vec![9; 8], vec![9; links], vec![after; scratch]));
    };
    left(12, 3, 9, 2, 9);
    left(12, 4, 7, 2, 9);
    left(11, 3, 9, 3, 9);
    left(10, 3, 9, 4, 9);
    left(13, 4, 9, 1, 0);
}

/// What the keeper prints for this k and this text.
pub(crate) fn kept(k: &str, text: &str) -> String {
    keep(format!("(keep {k})\n{text}").as_bytes())
}

#[test]
fn kept_lists() {
    let due = "(lease (k 1))\n(drop 0 0 1)\n(keep 1 0 2)\n(keep 2 1 2)\n(drop 3 1 3)\n(keep 4 2 3)\n(keep 5 2 4)\n(drop 6 3 4)\n\
               (kept 4)\n(dropped 3)\n(withdrawn 0)\n(end)\n";
    assert_eq!(kept("1", &text(&mesh())), due);
    assert_eq!(
        kept("2", &text(&mesh())),
        due.replace("drop ", "keep ").replace("k 1", "k 2").replace("4)\n(dropped 3", "7)\n(dropped 0")
    );
    let square = text(&square());
    let due =
        "(lease (k 1))\n(keep 0 0 1)\n(keep 1 1 2)\n(drop 2 2 3)\n(keep 3 0 3)\n(kept 3)\n(dropped 1)\n(withdrawn 0)\n(end)\n";
    assert_eq!(kept("1", &square), due);
    assert_eq!(kept("32", &text(&net(1, &[]))), "(lease (k 32))\n(kept 0)\n(dropped 0)\n(withdrawn 0)\n(end)\n");
    let due = "(lease (k 1))\n(keep 0 0 1)\n(keep 1 3 4)\n(drop 2 3 5)\n(keep 3 4 5)\n(keep 4 4 6)\n(drop 5 5 6)\n(kept 4)\n\
               (dropped 2)\n(withdrawn 0)\n(end)\n";
    assert_eq!(kept("1", &text(&in_parts())), due);
}

#[test]
fn refused_lists() {
    let mesh = text(&mesh());
    let line = |line: &str| keep(format!("{line}{mesh}").as_bytes());
    let lines = ["", "(keap 1)\n", "(keep )\n", "(keep 01)\n", "(keep 12345)\n", "(keep 1]\n", "(keep 1 2)\n", "(keep 1) \n"];
    assert_eq!(lines.map(line), [1, 3, 6, 7, 10, 7, 7, 8].map(|place| format!("(refused 1 {place})\n")));
    assert_eq!((keep(b""), keep(b"(keep 1)")), ("(refused 1 0)\n".into(), "(refused 1 8)\n".into()));
    assert_eq!((kept("0", &mesh), kept("33", &mesh)), ("(refused 9 0)\n".into(), "(refused 9 0)\n".into()));
    let head = "(net (relays 4) (links 2))\n(link 0 1)\n";
    assert_eq!(kept("1", ""), "(refused 2 0)\n");
    assert_eq!(kept("1", &format!("{head}(link 0_2)\n(end)\n")), "(refused 2 45)\n");
    assert_eq!(kept("1", &format!("{mesh}x")), "(refused 2 110)\n");
    assert_eq!(kept("1", "(net (relays 1001) (links 0))\n(end)\n"), "(refused 3 0)\n");
    assert_eq!(kept("1", "(net (relays 5) (links 3001))\n"), "(refused 4 0)\n");
    assert_eq!(kept("33", &format!("{head}(link 1 4)\n(end)\n")), "(refused 5 1)\n");
    assert_eq!(kept("33", &format!("{head}(link 2 2)\n(end)\n")), "(refused 6 1)\n");
    assert_eq!(kept("33", &format!("{head}(link 0 1)\n(end)\n")), "(refused 7 1)\n");
}

#[test]
fn last_two_of_the_order() {
    let mut without_two = mesh();
    without_two.states[2] = 0;
    let nets = [(mesh(), (4, 3), 2), (without_two, (4, 3), 1), (full_four(), (3, 2), 3), (square(), (3, 2), 2)];
    for (net, (last, before), figure) in nets {
        let order = ordering(&net);
        assert_eq!(order[order.len() - 2..], [before, last]);
        assert_eq!(links(&net)[usize::from(last)], figure);
        assert_eq!(flow::greatest(&net, last, before, usize::MAX), figure as usize);
        assert_eq!(route(&net, before, last, figure as u16 + 1), None);
    }
    assert_eq!(route(&mesh(), 4, 3, 2), Some(vec![vec![4, 2, 3], vec![4, 3]]));
    assert_eq!(route(&mesh(), 3, 4, 2), Some(vec![vec![3, 2, 4], vec![3, 4]]));
    assert_eq!(route(&square(), 2, 3, 2), Some(vec![vec![2, 1, 0, 3], vec![2, 3]]));
}

/// What the surer prints, on stored inputs of tests/surer.
#[test]
fn sure_figure() {
    let printed = |net: &Network| sure(text(net).as_bytes());
    let mut net = mesh();
    assert_eq!(printed(&net), "(sheet (from 4) (to 3) (k 2))\n(route 4 2 3)\n(over 5 4)\n(route 4 3)\n(over 6)\n(kept 7)\n(end)\n");
    net.states[2] = 0;
    assert_eq!(printed(&net), "(sheet (from 4) (to 3) (k 1))\n(route 4 3)\n(over 6)\n(kept 3)\n(end)\n");
    net.states = vec![0, 0, 0, 1, 0];
    assert_eq!(printed(&net), "(none (serving 1))\n");
    assert_eq!(sure(b"(net (relays 2) (links 0))\n(end)\n"), "(none (from 1) (to 0) (links 0))\n");
    assert_eq!(sure(b"(want 4 3 2)\n"), "(refused 2 1)\n");
    let links = (0..34).flat_map(|high| (0..high).map(move |low| (low, high)));
    let (lows, highs) = links.unzip();
    let full = Network { n: 34, lows, highs, states: vec![1; 34] };
    assert_eq!(printed(&full), "(none (from 33) (to 32) (links 33))\n");
}

#[test]
fn highest_forest() {
    let nets = boundaries(&mut Random::new(1));
    let highest = nets.iter().filter_map(|net| order_and_forests(net).1.into_iter().max());
    assert_eq!(highest.filter(|&forest| forest == 76).count(), 17);
}

/// The two ways on one network: the order, the forests, the text, and a wish.
fn agree(random: &mut Random, net: &Network) {
    assert_eq!((check(net), swift::check(net)), (Ok(()), Ok(())));
    let (mut ours, mut theirs) = ((vec![7; 1000], vec![7; 1000]), (vec![7; 1000], vec![7; 1000]));
    order(net, &mut ours.0, &mut ours.1).unwrap();
    swift::order_by::<swift::Plain>(net, &mut theirs.0, &mut theirs.1).unwrap();
    assert_eq!(ours, theirs);
    theirs = (vec![7; 1000], vec![7; 1000]);
    swift::order_by::<swift::Buckets>(net, &mut theirs.0, &mut theirs.1).unwrap();
    assert_eq!(ours, theirs);
    let (mut forests, mut swift_forests) = ([7; 3001], [7; 3001]);
    assert_eq!(split(net, &mut forests), swift::split(net, &mut swift_forests));
    assert_eq!(forests, swift_forests);
    let k = random.within(1, 6) as u16;
    let (mut marks, mut swift_marks) = ([7; 3001], [7; 3001]);
    assert_eq!(cut(net, k, &mut marks), swift::cut(net, k, &mut swift_marks));
    assert_eq!(marks, swift_marks);
    let (mut one, mut two) = ([7; 60_000], [7; 60_000]);
    assert_eq!(write(net, &mut one), swift_text::write(net, &mut two));
    assert!(one == two);
    let relays = net.in_service();
    if relays.len() > 1 {
        let at = random.below(relays.len());
        let (from, to) = (relays[at], relays[(at + random.within(1, relays.len() - 1)) % relays.len()]);
        let wish = Wish { k, from, to };
        let found = routes(net, wish);
        assert_eq!(swift::routes(net, wish), found);
        let with_links = |route: Vec<u16>| (route.clone(), over(net, &route));
        let both = found.clone().map(|routes| routes.into_iter().map(with_links).collect());
        assert_eq!(swift::routes_with_links(net, wish), both);
        assert!(found.is_none_or(|routes| routes.len() <= flow::greatest(net, from, to, usize::MAX)));
    }
}

#[test]
fn two_ways_agree() {
    let mut random = Random::new(1);
    let mut nets = boundaries(&mut random);
    nets.extend(nets.iter().map(withdrawn).collect::<Vec<_>>());
    nets.extend((0..300).map(|_| any(&mut random, 200)));
    for net in nets {
        agree(&mut random, &net);
    }
}
