//! What the tests share.
#![allow(dead_code)]

use std::sync::atomic::{AtomicUsize, Ordering};
use std::sync::Arc;

/// Numbers that look random, and are the same in each run.
pub struct Random(u64);

impl Random {
    pub fn new(seed: u64) -> Self {
        Self(seed)
    }

    /// Returns a number below a bound, which is not 0.
    pub fn below(&mut self, bound: u64) -> u64 {
        // (SplitMix64)
        self.0 = self.0.wrapping_add(0x9e37_79b9_7f4a_7c15);
        let mut z = self.0;
        z = (z ^ (z >> 30)).wrapping_mul(0xbf58_476d_1ce4_e5b9);
        z = (z ^ (z >> 27)).wrapping_mul(0x94d0_49bb_1331_11eb);
        (z ^ (z >> 31)) % bound
    }
}

/// Counts the drops of each of its values.
pub struct Drops(Arc<Vec<AtomicUsize>>);

/// A value whose drops are counted.
pub struct Counted {
    pub number: usize,
    drops: Arc<Vec<AtomicUsize>>,
}

impl Drops {
    pub fn new(values: usize) -> Self {
        Self(Arc::new((0..values).map(|_| AtomicUsize::new(0)).collect()))
    }

    /// Makes the value with this number.
    pub fn value(&self, number: usize) -> Counted {
        Counted { number, drops: Arc::clone(&self.0) }
    }

    /// How often the value with this number was dropped.
    pub fn of(&self, number: usize) -> usize {
        self.0[number].load(Ordering::SeqCst)
    }

    pub fn are_all(&self, times: usize) -> bool {
        self.0.iter().all(|it| it.load(Ordering::SeqCst) == times)
    }
}

impl Drop for Counted {
    fn drop(&mut self) {
        self.drops[self.number].fetch_add(1, Ordering::SeqCst);
    }
}

/// A value whose drop panics, if it is told to.
pub struct Panics(pub bool, pub Counted);

impl Drop for Panics {
    fn drop(&mut self) {
        if self.0 {
            std::panic::resume_unwind(Box::new("the drop of a value panics"));
        }
    }
}
