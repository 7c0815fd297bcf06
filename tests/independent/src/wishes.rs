//! Seeded wishes, and the lines that ask for them.

use crate::random::Random;
use crate::sweep::Wish;
use crate::table::Network;

/// A wish that a network with these forest numbers may well meet: k within its forests, relays in service, and often the ends of one
/// link.
pub fn wish(random: &mut Random, net: &Network, numbers: &[u16]) -> Wish {
    let (relays, n) = (net.in_service(), usize::from(net.n));
    let mut relay = || if relays.is_empty() || random.once_in(24) { random.below(n) as u16 } else { *random.pick(&relays) };
    let (mut from, mut to) = (relay(), relay());
    let highest = numbers.iter().copied().max().unwrap_or(0);
    let mut k = random.within(1, usize::from(highest.clamp(1, 32))) as u16;
    if !numbers.is_empty() && random.once_in(2) {
        let link = random.below(numbers.len());
        (from, to) = (net.lows[link], net.highs[link]);
        k = random.within(1, usize::from(numbers[link].clamp(1, 32))) as u16;
    }
    if random.once_in(2) {
        (from, to) = (to, from);
    }
    match random.below(20) {
        0 => k = *random.pick(&[0, 32, 33, 1000, 65535]),
        1 => from = *random.pick(&[net.n, net.n.wrapping_add(1), 65535, to]),
        2 => to = *random.pick(&[net.n, net.n.wrapping_add(1), 65535, from]),
        _ => {}
    }
    Wish { k, from, to }
}

/// Any wish, of a network that may be refused.
pub fn any_wish(random: &mut Random, net: &Network) -> Wish {
    let mut relay = || if random.once_in(10) { random.below(10001) } else { random.below(usize::from(net.n)) };
    let (from, to) = (relay() as u16, relay() as u16);
    let k = if random.once_in(8) { random.below(40) } else { random.within(1, 4) };
    Wish { k: k as u16, from, to }
}

/// The line that asks for it.
pub fn line(wish: Wish) -> Vec<u8> {
    let Wish { k, from, to } = wish;
    format!("(want {from} {to} {k})\n").into_bytes()
}
