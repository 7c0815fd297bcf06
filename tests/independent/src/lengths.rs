//! Lengths of the lists that an operation is lent.

use crate::random::Random;

/// Draws a length for a lent list of which so many entries are needed.
pub type Lengths = fn(&mut Random, usize) -> usize;

/// Exact, one short, none, a little or far too long.
pub fn any_length(random: &mut Random, exact: usize) -> usize {
    match random.below(12) {
        0 => exact.saturating_sub(1),
        1 => 0,
        2 => random.below(exact + 1),
        3 => exact + 5000,
        4 | 5 => exact + 1,
        6 => exact + random.below(100),
        _ => exact,
    }
}

/// The same, but seldom too short.
pub fn mostly_enough(random: &mut Random, exact: usize) -> usize {
    let short = random.once_in(3);
    let length = any_length(random, exact);
    if short { length } else { length.max(exact) }
}
