//! Drawings worked out by hand from #106 of document 02, each style and each way of spoiling one, and the plain program against the
//! fast one on seeded drawings.

use crate::dimacs::{import, network};
use crate::drawings::{STYLES, drawn, mend, plain};
use crate::examples::{mesh, net, read_alike, refused};
use crate::generate::{any, scratch};
use crate::random::Random;
use crate::spoilt::ways;
use crate::swift_dimacs;
use crate::table::{Network, Refusal};

/// The network of a drawing, with room for any.
fn of(text: &str) -> Result<Network, Refusal> {
    network(text.as_bytes(), 3000, 1000)
}

/// Three relays and a link behind these lines, with those behind it.
fn around(front: &str, back: &str) -> Result<Network, Refusal> {
    of(&format!("{front}p edge 3 1\n{back}"))
}

#[test]
fn drawings_that_are_accepted() {
    let one = || Ok(net(3, &[(0, 2)]));
    assert_eq!(of("p edge 1 0\n"), Ok(net(1, &[])));
    assert_eq!(of("p edge 1000 0\nc\n"), Ok(net(1000, &[])));
    assert_eq!(around("", "e 1 3\n"), one());
    assert_eq!(around("", "e 3 1\n"), one());
    assert_eq!(around("c\n", "e 3 1\n"), one());
    assert_eq!(around("c \nc\nc  \n", "c c\ne 1 3\nc\nc e 1 2\n"), one());
    assert_eq!(around("c p edge 9 9\n", "c\ne 1 3\nc p edge 3 1\n"), one());
    assert_eq!(around("c \0\n", "c \0e 1 2\r\ne 1 3\n"), one());
    let lines = "e 1 2\ne 3 1\ne 2 3\ne 4 2\ne 3 4\ne 5 3\ne 4 5\n";
    assert_eq!(of(&format!("p edge 5 7\n{lines}")), Ok(mesh()));
    assert_eq!(of("p edge 1000 2\ne 1000 999\ne 1 1000\n"), Ok(net(1000, &[(998, 999), (0, 999)])));
}

#[test]
fn departures_in_front() {
    let at = |text: &str, place: usize| assert_eq!(of(text), refused(18, place), "{text}");
    at("", 0);
    at("\n", 0);
    at(" p edge 3 1\n", 0);
    at("c", 1);
    at("c ", 2);
    at("c drawn", 7);
    at("cx\n", 1);
    at("c\t\n", 1);
    at("c\r\n", 1);
    at("c\0\n", 1);
    at("C drawn\n", 0);
    at("c drawn\n", 8);
    at("e 1 2\np edge 3 1\n", 0);
    at("n 1 2\n", 0);
    at("p", 1);
    at("p col 3 1\n", 2);
    at("p  edge 3 1\n", 2);
    at("p edges 3 1\n", 6);
    at("p edge 3\n", 8);
    at("p edge 3 \n", 9);
    at("p edge 3 1", 10);
    at("p edge 3 1 \n", 10);
    at("p edge 3 1\r\n", 10);
    at("p edge 3 1 1\n", 10);
    at("p edge 03 1\n", 8);
    at("p edge 00 1\n", 8);
    at("p edge 3 01\n", 10);
    at("p edge 10000 1\n", 11);
    at("p edge 3 10000\n", 13);
    at("p edge -3 1\n", 7);
    at("c\nc drawn\np col 3 1\n", 12);
}

#[test]
fn departures_behind() {
    let at = |lines: &str, place: usize| assert_eq!(around("", lines), refused(18, place), "{lines}");
    at("", 11);
    at("c drawn\n", 19);
    at("\ne 1 3\n", 11);
    at("p edge 3 1\ne 1 3\n", 11);
    at("n 1 2\ne 1 3\n", 11);
    at("E 1 3\n", 11);
    at("e1 3\n", 12);
    at("e  1 3\n", 13);
    at("e 01 2\n", 14);
    at("e x 3\n", 13);
    at("e 1\n", 14);
    at("e 1 \n", 15);
    at("e 1 3", 16);
    at("e 1 3 \n", 16);
    at("e 1 3\r\n", 16);
    at("e 1 3 7\n", 16);
    at("e 10000 3\n", 17);
    at("e 1 30000\n", 19);
    at("e 1 3\n\n", 17);
    at("e 1 3\ne 1 2\n", 17);
    at("e 1 3\np edge 3 1\n", 17);
    at("e 1 3\nc", 18);
    at("e 1 3\nc x", 20);
    at("e 1 3\ncx\n", 18);
    at("e 1 3\nc\n\n", 19);
    at("e 1 3\nc\ne 1 2\n", 19);
    at("e 0 1 \n", 16);
    assert_eq!(of("p edge 3 0\ne 1 3\n"), refused(18, 11));
    assert_eq!(of("p edge 3 2\ne 1 3\n"), refused(18, 17));
}

#[test]
fn other_refusals() {
    for (text, number) in [("0 0", 3), ("1001 0", 3), ("9999 0", 3), ("0 3001", 3), ("1000 3001", 4), ("1 9999", 4)] {
        assert_eq!(of(&format!("p edge {text}\nx")), refused(number, 0));
        assert_eq!(of(&format!("c\np edge {text}")), refused(18, 9 + text.len()));
    }
    let at = |lines: &str, number, place| assert_eq!(of(&format!("c\np edge 4 3\n{lines}")), refused(number, place), "{lines}");
    at("e 0 1\n", 5, 0);
    at("e 1 0\nx", 5, 0);
    at("e 1 5\n", 5, 0);
    at("e 9999 1\n", 5, 0);
    at("e 0 0\n", 5, 0);
    at("e 5 5\n", 5, 0);
    at("e 1 2\nc\nc e 1 2\ne 3 3\n", 6, 1);
    at("e 1 2\ne 1 2\n", 7, 1);
    at("e 1 2\ne 2 1\n", 7, 1);
    at("e 2 1\ne 3 4\nc\ne 1 2\n", 7, 2);
    at("e 2 1\ne 1 2", 18, 24);
    at("e 4 4\ne 0 0\n", 6, 0);
}

/// The answer and the lists: zeros behind what is read, and zeros alone after a refusal; 8 for each list.
#[test]
fn lists() {
    let with = |text: &str, rooms: [usize; 3]| {
        let [mut lows, mut highs, mut states] = rooms.map(|room| vec![9; room]);
        let outcome = import(text.as_bytes(), &mut lows, &mut highs, &mut states);
        (outcome, [lows, highs, states])
    };
    let text = "c drawn\np edge 3 2\ne 3 1\ne 2 3\n";
    assert_eq!(with(text, [2, 2, 3]), (Ok((3, 2)), [vec![0, 1], vec![2, 2], vec![1, 1, 1]]));
    assert_eq!(with(text, [3, 4, 5]), (Ok((3, 2)), [vec![0, 1, 0], vec![2, 2, 0, 0], vec![1, 1, 1, 0, 0]]));
    for rooms in [[1, 2, 3], [2, 1, 3], [2, 2, 2], [0, 0, 0]] {
        assert_eq!(with(text, rooms), (refused(8, 0), rooms.map(|room| vec![0; room])));
        assert_eq!(with("p edge 3 2\nx", rooms), (refused(8, 0), rooms.map(|room| vec![0; room])));
    }
    assert_eq!(with("p edge 3 2\ne 1 2\ne 2 1\n", [2, 3, 4]), (refused(7, 1), [vec![0; 2], vec![0; 3], vec![0; 4]]));
    assert_eq!(with("p edge 3 2\ne 1 2\ne 1 3", [2, 3, 4]), (refused(18, 22), [vec![0; 2], vec![0; 3], vec![0; 4]]));
}

/// In each style the drawing of a network is its table with all in service, and each way of spoiling it has its refusal.
#[test]
fn styles_and_spoilt() {
    let random = &mut Random::new(6);
    let (mut made, mut spoilt) = (0, 0);
    for _ in 0..150 {
        let net = any(random, 40);
        let serving = Network::serving(net.n, net.lows.clone(), net.highs.clone());
        for (style, make) in STYLES {
            let mut lines = plain(&net);
            make(random, &mut lines);
            assert_eq!(network(&lines.concat(), 3000, 1000), Ok(serving.clone()), "{style}");
        }
        for (kind, number, spoil) in ways() {
            let (style, mut lines) = drawn(random, &net);
            if spoil(random, &mut lines).is_some() {
                let outcome = network(&lines.concat(), 3000, 1000).map_err(|refusal| refusal.number);
                assert_eq!(outcome, Err(number), "{kind}, {style}: {:?}", String::from_utf8_lossy(&lines.concat()));
                spoilt += 1;
            }
            made += 1;
        }
    }
    assert!(2 * spoilt > made, "{spoilt} of {made}");
}

#[test]
fn two_ways_import() {
    let random = &mut Random::new(4);
    let mut said = [0; 19];
    for _ in 0..6000 {
        let net = any(random, 40);
        let mut lines = drawn(random, &net).1;
        let all: Vec<_> = ways().collect();
        if random.once_in(2) {
            random.pick(&all).2(random, &mut lines);
        }
        let mut text = lines.concat();
        (0..random.below(2)).for_each(|_| scratch(random, &mut text));
        if random.once_in(3) {
            mend(&mut text);
        }
        said[read_alike(random, &net, &text, import, swift_dimacs::import)] += 1;
    }
    assert!([0, 3, 4, 5, 6, 7, 8, 18].iter().all(|&number| said[number] > 20), "{said:?}");
}
