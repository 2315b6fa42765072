//! The lent memory: dirty, and between marks that show a write outside it.

use crate::case::Sizes;
use crate::rng::Rng;

const MARKS: usize = 32;

/// A slice with marks before and after it.
pub struct Lent<T> {
    all: Vec<T>,
    mark: T,
}

impl<T: Copy + PartialEq> Lent<T> {
    fn new(len: usize, mark: T, mut value: impl FnMut() -> T) -> Lent<T> {
        let mut all = vec![mark; len + 2 * MARKS];
        all[MARKS..MARKS + len].fill_with(&mut value);
        Lent { all, mark }
    }

    pub fn part(&mut self) -> &mut [T] {
        let end = self.all.len() - MARKS;
        &mut self.all[MARKS..end]
    }

    pub fn held(&self) -> &[T] {
        &self.all[MARKS..self.all.len() - MARKS]
    }

    fn marks_stand(&self) -> bool {
        let (before, rest) = self.all.split_at(MARKS);
        let after = &rest[rest.len() - MARKS..];
        before.iter().chain(after).all(|&m| m == self.mark)
    }
}

pub struct Memory {
    pub store: Lent<u8>,
    pub cache: Lent<u64>,
    pub out: Lent<u8>,
    /// What the output held before the run.
    pub out_before: Vec<u8>,
}

impl Memory {
    pub fn new(sizes: &Sizes) -> Memory {
        let mut rng = Rng::new(sizes.dirt);
        let store = Lent::new(sizes.store_bytes, 0xA5, || rng.byte());
        let cache = Lent::new(sizes.cache_words, 0xA5A5_A5A5_A5A5_A5A5, || rng.next());
        let out = Lent::new(sizes.out_bytes, 0x5A, || rng.byte());
        let out_before = out.held().to_vec();
        Memory {
            store,
            cache,
            out,
            out_before,
        }
    }

    /// The output as at first; store and cache stay as they were left.
    pub fn renew_output(&mut self) {
        let before = self.out_before.clone();
        self.out.part().copy_from_slice(&before);
    }

    pub fn marks_stand(&self) -> bool {
        self.store.marks_stand() && self.cache.marks_stand() && self.out.marks_stand()
    }
}
