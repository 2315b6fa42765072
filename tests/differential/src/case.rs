//! One case: a text, and the memory that is lent for it.

use crate::rng::Rng;
use crate::{huge, sessions, verdicts};

#[derive(Clone, Copy, Debug, PartialEq, Eq)]
pub enum Kind {
    Session,
    Verdict,
}

#[derive(Clone, Debug)]
pub struct Case {
    pub kind: Kind,
    pub text: Vec<u8>,
    /// A text of the same kind that is run before on the same store and cache, so that they are
    /// lent as it leaves them.
    pub earlier: Option<Vec<u8>>,
    /// Compare after each line and not only at the end.
    pub stepwise: bool,
    pub sizes: Sizes,
}

#[derive(Clone, Copy, Debug)]
pub struct Sizes {
    pub store_bytes: usize,
    pub cache_words: usize,
    pub out_bytes: usize,
    /// The seed of what the lent memory holds before.
    pub dirt: u64,
}

/// Every so many cases one fills a store of the largest capacity.
pub const HUGE_EVERY: u64 = 10_000;

impl Case {
    pub fn make(seed: u64, number: u64) -> Case {
        let mut rng = Rng::of_case(seed, number);
        if number % HUGE_EVERY == HUGE_EVERY / 2 {
            huge::make(&mut rng)
        } else if rng.percent(70) {
            sessions::make(&mut rng)
        } else {
            verdicts::make(&mut rng)
        }
    }
}

/// A capacity in nodes: none, too few for a gate, tight, or ample.
pub fn capacity(rng: &mut Rng) -> usize {
    match rng.weighted(&[2, 10, 38, 25, 25]) {
        0 => 0,
        1 => rng.between(1, 8),
        2 => rng.between(9, 40),
        3 => rng.between(41, 200),
        _ => rng.between(201, 4000),
    }
}

/// The bytes of a store of that capacity, which need not be a multiple of 16.
pub fn store_bytes(rng: &mut Rng, capacity: usize) -> usize {
    16 * capacity + if rng.percent(40) { rng.below(16) } else { 0 }
}

/// No cache, less than one remembered result has, few results (so that they displace each other),
/// or many.
pub fn cache_words(rng: &mut Rng) -> usize {
    match rng.weighted(&[10, 10, 25, 55]) {
        0 => 0,
        1 => rng.between(1, 7),
        2 => rng.between(8, 200),
        _ => rng.between(201, 4096),
    }
}
