//! The works of the benchmark: one list of rows, whether they are timed or counted.

use independent::drawings::{exchange, plain};
use independent::flow;
use independent::forests::{earlier, places};
use independent::library;
use independent::random::Random;
use independent::sweep::Wish;
use independent::table::Network;
use independent::texts::input;
use independent::{sets, swift, swift_dimacs, swift_reports, swift_sheet, swift_text, text};
use std::collections::HashSet;
use std::hint::black_box;

pub const KINDS: [&str; 4] = ["random", "band", "core", "thinned"];
pub const LARGEST: usize = 1000;
pub const SIZES: [usize; 6] = [10, 30, 100, 300, 600, LARGEST];

/// What is done with the works of a row: the library's, the plain program's and, where it has a part in it, the flow program's.
pub trait Measure {
    fn row(&mut self, kind: &'static str, net: &Network, what: &str, works: &mut [&mut dyn FnMut()]);
}

/// Measures every row.
pub fn each(measure: &mut dyn Measure) {
    for kind in KINDS {
        for n in SIZES {
            let net = network(kind, n);
            operations(measure, kind, &net);
            drawings(measure, kind, &net);
            reports(measure, kind, &net);
            routes(measure, kind, &net);
            eprintln!("{kind} {n}");
        }
    }
}

/// Keeps a result from being optimised away.
fn run<T>(result: T) {
    black_box(result);
}

fn table(n: usize, links: impl IntoIterator<Item = (usize, usize)>, random: &mut Random) -> Network {
    let mut links: Vec<(usize, usize)> = links.into_iter().collect::<HashSet<_>>().into_iter().collect();
    links.sort();
    random.shuffle(&mut links);
    links.truncate(3000);
    let lows = links.iter().map(|link| link.0.min(link.1) as u16).collect();
    let highs = links.iter().map(|link| link.0.max(link.1) as u16).collect();
    Network::serving(n as u16, lows, highs)
}

/// The networks timed: random ones with three links a relay, bands of width 3, a tree that hangs on a full core of 70, and the random
/// ones with each tenth relay withdrawn.
fn network(kind: &str, n: usize) -> Network {
    let random = &mut Random::new(n as u64);
    let mut links = vec![];
    match kind {
        "random" | "thinned" => {
            let most = (3 * n).min(n * (n - 1) / 2);
            let mut seen = HashSet::new();
            while seen.len() < most {
                let (a, b) = (random.below(n), random.below(n));
                if a < b {
                    seen.insert((a, b));
                }
            }
            links.extend(seen);
        }
        "band" => {
            for a in 0..n {
                links.extend((a + 1..n.min(a + 4)).map(|b| (a, b)));
            }
        }
        _ => {
            for b in 1..n {
                let core = if b < 70 { 0 } else { b };
                links.extend((core..b).map(|a| (a, b)));
                links.push((random.below(b), b));
            }
        }
    }
    let mut net = table(n, links, random);
    if kind == "thinned" {
        net.states.iter_mut().step_by(10).for_each(|state| *state = 0);
    }
    net
}

fn operations(measure: &mut dyn Measure, kind: &'static str, net: &Network) {
    let written = text::text(net).into_bytes();
    let [mut a, mut b, mut c, mut d] = [(); 4].map(|()| vec![0u16; 3000]);
    let (mut e, mut f) = (vec![0u16; 1000], vec![0u16; 1000]);
    let (mut one, mut two) = (vec![0u8; written.len()], vec![0u8; written.len()]);
    let mut row = |what: &str, library: &mut dyn FnMut(), plain: &mut dyn FnMut()| {
        measure.row(kind, net, what, &mut [library, plain]);
    };
    row("check", &mut || run(library::check(net)), &mut || run(swift::check(net)));
    row("read", &mut || run(library::read(&written, &mut a, &mut b, &mut e)), &mut || {
        run(swift_text::read(&written, &mut c, &mut d, &mut f));
    });
    row("write", &mut || run(library::write(net, &mut one)), &mut || run(swift_text::write(net, &mut two)));
    row("order", &mut || run(library::order(net, &mut a, &mut b)), &mut || {
        run(swift::order_by::<swift::Plain>(net, &mut c, &mut d));
    });
    row("order, by count", &mut || run(library::order(net, &mut a, &mut b)), &mut || {
        run(swift::order_by::<swift::Buckets>(net, &mut c, &mut d));
    });
    row("split", &mut || run(library::split(net, &mut a)), &mut || run(swift::split(net, &mut c)));
    row("cut, k 2", &mut || run(library::cut(net, 2, &mut a)), &mut || run(swift::cut(net, 2, &mut c)));
}

/// The import of a drawing of the links, beside the plain program with the low end first and with the ends in either order, and beside
/// the library's own Read of a text of the same links.
fn drawings(measure: &mut dyn Measure, kind: &'static str, net: &Network) {
    let serving = Network::serving(net.n, net.lows.clone(), net.highs.clone());
    let written = text::text(&serving).into_bytes();
    let (random, mut mixed) = (&mut Random::new(1), plain(net));
    mixed.iter_mut().filter(|_| random.once_in(2)).for_each(exchange);
    let [mut a, mut b, mut c, mut d] = [(); 4].map(|()| vec![0u16; 3000]);
    let (mut e, mut f) = (vec![0u16; 1000], vec![0u16; 1000]);
    for (what, text) in [("import", plain(net).concat()), ("import, ends mixed", mixed.concat())] {
        assert_eq!(library::import(&text, &mut a, &mut b, &mut e).code, 0);
        assert!(swift_dimacs::import(&text, &mut c, &mut d, &mut f).is_ok() && [&a, &b, &e] == [&c, &d, &f]);
        let library: &mut dyn FnMut() = &mut || run(library::import(&text, &mut a, &mut b, &mut e));
        measure.row(kind, net, what, &mut [library, &mut || run(swift_dimacs::import(&text, &mut c, &mut d, &mut f))]);
    }
    let drawn = plain(net).concat();
    let library: &mut dyn FnMut() = &mut || run(library::import(&drawn, &mut a, &mut b, &mut e));
    measure.row(kind, net, "import, by read", &mut [library, &mut || run(library::read(&written, &mut c, &mut d, &mut f))]);
}

/// The reports of the relays in service, in any order, beside the plain program, and beside the library's own Read of a text of the same
/// links; of the largest random network, also with each relay seeing all higher ones, and with each seeing all lower ones: some 2 MB, and
/// the same links.
fn reports(measure: &mut dyn Measure, kind: &'static str, net: &Network) {
    let (random, made) = (&mut Random::new(1), sets::reported(net));
    let mut reports = sets::plain(random, net);
    random.shuffle(&mut reports);
    let set = sets::text(&reports);
    reported(measure, kind, &made, "reports", &set);
    let written = text::text(&made).into_bytes();
    let [mut a, mut b, mut c, mut d] = [(); 4].map(|()| vec![0u16; 3000]);
    let (mut e, mut f) = (vec![0u16; 1000], vec![0u16; 1000]);
    let library: &mut dyn FnMut() = &mut || run(library::reports(net.n, &set, &mut a, &mut b, &mut e));
    measure.row(kind, &made, "reports, by read", &mut [library, &mut || run(library::read(&written, &mut c, &mut d, &mut f))]);
    if kind == "random" && usize::from(net.n) == LARGEST {
        let (mut low, mut high) = (reports.clone(), reports);
        low.iter_mut().for_each(|report| (report.relay + 1..net.n).for_each(|other| sets::see(report, other)));
        high.iter_mut().for_each(|report| (0..report.relay).for_each(|other| sets::see(report, other)));
        reported(measure, kind, &made, "reports, most seen from the low end", &sets::text(&low));
        reported(measure, kind, &made, "reports, most seen from the high end", &sets::text(&high));
    }
}

/// A set that makes this network, beside the plain program.
fn reported(measure: &mut dyn Measure, kind: &'static str, made: &Network, what: &str, set: &[u8]) {
    let [mut a, mut b, mut c, mut d] = [(); 4].map(|()| vec![0u16; 3000]);
    let (mut e, mut f) = (vec![0u16; 1000], vec![0u16; 1000]);
    assert_eq!(library::reports(made.n, set, &mut a, &mut b, &mut e).code, 0);
    assert!(swift_reports::reports(made.n, set, &mut c, &mut d, &mut f).is_ok() && [&a, &b, &e] == [&c, &d, &f]);
    assert!(a.starts_with(&made.lows) && b.starts_with(&made.highs) && e.starts_with(&made.states));
    let library: &mut dyn FnMut() = &mut || run(library::reports(made.n, set, &mut a, &mut b, &mut e));
    measure.row(kind, made, what, &mut [library, &mut || run(swift_reports::reports(made.n, set, &mut c, &mut d, &mut f))]);
}

fn planned(measure: &mut dyn Measure, kind: &'static str, net: &Network, wish: Wish) {
    let (input, _) = input(net, wish);
    let mut output = [0; 9935];
    let length = library::plan(&input, &mut output).answer[0] as usize;
    assert_eq!(&output[..length], swift_text::plan(&input));
    measure.row(
        kind,
        net,
        "plan, k 2",
        &mut [&mut || run(library::plan(&input, &mut output)), &mut || run(swift_text::plan(&input))],
    );
}

/// The planner's sheet for a wish, read back.
fn read_back(measure: &mut dyn Measure, kind: &'static str, net: &Network, wish: Wish) {
    let sheet = swift_text::plan(&input(net, wish).0);
    assert_eq!(library::verify(net, &sheet).answer[0], 1);
    assert_eq!(swift_sheet::verify(net, &sheet), Ok(true));
    measure.row(
        kind,
        net,
        &format!("verify, k {}", wish.k),
        &mut [&mut || run(library::verify(net, &sheet)), &mut || run(swift_sheet::verify(net, &sheet))],
    );
}

fn linked(measure: &mut dyn Measure, kind: &'static str, net: &Network, wish: Wish) {
    let Wish { k, from, to } = wish;
    let (most, size) = (usize::from(k), usize::from(net.n));
    let (mut counts, mut relays) = (vec![0; most], vec![0; size - 2 + 2 * most]);
    let (mut links, mut scratch) = (vec![0; size - 2 + most], vec![0; most * size]);
    let mut library = || library::route_links(net, k, from, to, &mut counts, &mut relays, &mut links, &mut scratch);
    assert_eq!(library().code, 0);
    measure.row(
        kind,
        net,
        &format!("route with links, k {k}"),
        &mut [&mut || run(library()), &mut || run((swift::check(net), swift::routes_with_links(net, wish)))],
    );
}

fn routes(measure: &mut dyn Measure, kind: &'static str, net: &Network) {
    let size = usize::from(net.n);
    for k in [1, 2, 3, 4, 8, 16, 32] {
        let Some((from, to)) = ends(net, k) else { continue };
        let wish = Wish { k, from, to };
        let room = || (vec![0; usize::from(k)], vec![0; size - 2 + 2 * usize::from(k)]);
        let ((mut counts, mut relays), (mut others, mut other_relays)) = (room(), room());
        let mut scratch = vec![0; usize::from(k) * size];
        assert_eq!(library::route(net, k, from, to, &mut counts, &mut relays, &mut scratch).code, 0);
        assert!(flow::route(net, wish, &mut others, &mut other_relays).is_some());
        measure.row(
            kind,
            net,
            &format!("route, k {k}"),
            &mut [
                &mut || run(library::route(net, k, from, to, &mut counts, &mut relays, &mut scratch)),
                &mut || run((swift::check(net), swift::routes(net, wish))),
                &mut || run(flow::route(net, wish, &mut others, &mut other_relays)),
            ],
        );
        if k == 2 {
            linked(measure, kind, net, wish);
            planned(measure, kind, net, wish);
        }
        if k == 2 || k == 32 {
            read_back(measure, kind, net, wish);
        }
    }
}

/// The widest stretch of places in one tree of forest k, as its later and its earlier relay.
fn ends(net: &Network, k: u16) -> Option<(u16, u16)> {
    let (mut relays, mut unused, mut forests) = ([0; 1000], [0; 1000], [0; 3000]);
    let count = swift::scan(net, &mut relays, &mut unused, &mut forests);
    let relays = &relays[..count];
    let earlier = earlier(net, &places(net.n, relays));
    let (mut widest, mut low) = ((0, 0), 1);
    for (v, neighbours) in earlier.iter().enumerate().take(count + 1).skip(2) {
        if neighbours.len() < usize::from(k) {
            low = v;
        } else if v - low > widest.1 - widest.0 {
            widest = (low, v);
        }
    }
    if widest.1 == 0 { None } else { Some((relays[widest.1 - 1], relays[widest.0 - 1])) }
}
