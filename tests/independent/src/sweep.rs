//! Route: the sweep over whole paths, as the paper tells it.

use crate::forests::{earlier, ordering, places};
use crate::table::{Network, Refusal, check, known, plain, room};

type Path = Vec<u16>;

fn end(path: &Path) -> u16 {
    *path.last().expect("a path has a start")
}

/// The A-paths or the B-paths at v: replaces the ends, then exchanges.
fn exchange(paths: &mut [Path], ending: &[usize], j: usize, left: &dyn Fn(usize, u16) -> Option<u16>) {
    if ending.is_empty() {
        return;
    }
    let mut indices = ending.to_vec();
    if !indices.contains(&j) {
        indices.push(j);
    }
    indices.sort();
    for two in indices.windows(2) {
        let (h, i) = (two[0], two[1]);
        let before_last = paths[i][paths[i].len() - 2];
        *paths[i].last_mut().expect("a path has a start") = left(h, before_last).expect("left of a lower index");
    }
    let old: Vec<Path> = indices.iter().map(|&i| paths[i].clone()).collect();
    for (at, &i) in indices.iter().enumerate() {
        paths[i] = old[(at + 1) % old.len()].clone();
    }
}

/// The k pairs of paths from s and from t, in places; index 0 is unused.
pub fn sweep(k: usize, s: u16, t: u16, left: &dyn Fn(usize, u16) -> Option<u16>) -> Vec<(Path, Path)> {
    let mut a: Vec<Path> = vec![vec![]];
    let mut b: Vec<Path> = vec![vec![]];
    let mut open = vec![true; k + 1];
    for i in 1..=k {
        a.push(vec![s, left(i, s).expect("s has k earlier neighbours")]);
        b.push(vec![t]);
    }
    for v in (1..s).rev() {
        if v == t {
            for i in 1..=k {
                if end(&a[i]) == t {
                    open[i] = false;
                } else {
                    b[i].push(left(i, t).expect("t has an i-th earlier neighbour"));
                }
            }
            continue;
        }
        let of_a: Vec<usize> = (1..=k).filter(|&i| open[i] && end(&a[i]) == v).collect();
        let of_b: Vec<usize> = (1..=k).filter(|&i| v < t && open[i] && end(&b[i]) == v).collect();
        let Some(&j) = of_a.iter().chain(&of_b).max() else { continue };
        exchange(&mut a, &of_a, j, left);
        exchange(&mut b, &of_b, j, left);
        match (end(&a[j]) == v, end(&b[j]) == v) {
            (true, true) => open[j] = false,
            (true, false) => a[j].extend(left(j, v)),
            (false, true) => b[j].extend(left(j, v)),
            (false, false) => {}
        }
    }
    a.into_iter().zip(b).collect()
}

fn root(parent: &mut [u16], mut place: u16) -> u16 {
    while parent[usize::from(place)] != place {
        place = parent[usize::from(place)];
    }
    place
}

/// The k routes of an accepted network between two relays in service, in relay numbers from `from`; none if the two are not in one tree
/// of forest k.
pub fn routes(net: &Network, wish: Wish) -> Option<Vec<Vec<u16>>> {
    let Wish { k, from, to } = wish;
    let order = ordering(net);
    let places = places(net.n, &order);
    let earlier = earlier(net, &places);
    let left = |i: usize, v: u16| earlier[usize::from(v)].get(i - 1).map(|&(place, _)| place);
    let (p, q) = (places[usize::from(from)], places[usize::from(to)]);
    let (s, t) = (p.max(q), p.min(q));
    let k = usize::from(k);
    let mut parent: Vec<u16> = (0..=net.n).collect();
    for v in 1..=net.n {
        if let Some(u) = left(k, v) {
            let (x, y) = (root(&mut parent, u), root(&mut parent, v));
            parent[usize::from(x)] = y;
        }
    }
    if root(&mut parent, s) != root(&mut parent, t) {
        return None;
    }
    let mut routes = Vec::new();
    for (a, b) in sweep(k, s, t, &left).into_iter().skip(1) {
        let mut route = a;
        route.extend(b.into_iter().rev().skip(1));
        if p == t {
            route.reverse();
        }
        routes.push(route.into_iter().map(|place| order[usize::from(place) - 1]).collect());
    }
    Some(routes)
}

/// What Route is asked.
#[derive(Clone, Copy, Debug)]
pub struct Wish {
    pub k: u16,
    pub from: u16,
    pub to: u16,
}

/// The refusals that come before a look at the lent lists: the table check, 9, 10, 11 and 17.
pub fn asked(net: &Network, wish: Wish) -> Result<(), Refusal> {
    let Wish { k, from, to } = wish;
    check(net)?;
    known(k)?;
    if from >= net.n || to >= net.n {
        return plain(10);
    }
    if from == to {
        return plain(11);
    }
    if net.serves(from) && net.serves(to) { Ok(()) } else { plain(17) }
}

/// Route: the count of relays written.
pub fn route(net: &Network, wish: Wish, counts: &mut [u16], relays: &mut [u16], scratch: &mut [u16]) -> Result<u16, Refusal> {
    asked(net, wish)?;
    let (count, size) = (usize::from(wish.k), usize::from(net.n));
    room(counts, count)?;
    room(relays, size - 2 + 2 * count)?;
    room(scratch, count * size)?;
    scratch.fill(0);
    let Some(routes) = routes(net, wish) else { return plain(13) };
    let all = routes.concat();
    for (count, route) in counts.iter_mut().zip(&routes) {
        *count = route.len() as u16;
    }
    relays[..all.len()].copy_from_slice(&all);
    Ok(all.len() as u16)
}
