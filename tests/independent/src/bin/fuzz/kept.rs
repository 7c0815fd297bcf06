//! What the fuzzer keeps to change on.

use independent::random::Random;
use std::collections::BTreeMap;

/// What is kept, in classes.
pub struct Kept<T>(BTreeMap<u32, Vec<T>>);

impl<T> Kept<T> {
    pub fn new() -> Kept<T> {
        Kept(BTreeMap::new())
    }

    pub fn keep(&mut self, class: u32, one: T) {
        self.0.entry(class).or_default().push(one);
    }

    /// One of any class as soon as of any other.
    pub fn pick(&self, random: &mut Random) -> &T {
        let class = self.0.values().nth(random.below(self.0.len())).expect("something is kept");
        random.pick(class)
    }

    pub fn count(&self) -> usize {
        self.0.values().map(Vec::len).sum()
    }
}
