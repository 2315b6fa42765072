//! The operation cache: remembered results, each under everything that it depends on and the epoch.

use super::store::Edge;

/// The operation, its nodes, and its argument: for sum the ratio of the weights, for contraction the set of indices,
/// for lowering the index.
#[derive(Clone, Copy, PartialEq, Eq)]
pub struct Key(u64);

impl Key {
    pub fn sum(left: u16, right: u16, ratio: u32) -> Self {
        Key::new(0, left, right, ratio)
    }

    pub fn contract(left: u16, right: u16, set: u32) -> Self {
        Key::new(1, left, right, set)
    }

    pub fn lower(node: u16, index: u32) -> Self {
        Key::new(2, node, 0, index)
    }

    fn new(operation: u64, left: u16, right: u16, argument: u32) -> Self {
        Key(operation << 56 | u64::from(argument) << 32 | u64::from(left) << 16 | u64::from(right))
    }
}

/// The result is the epoch (31 bits), the weight (17) and the node (16).
#[derive(Clone, Copy)]
struct Entry {
    key: Key,
    result: u64,
}

pub struct Cache {
    entries: Vec<Entry>,
    epoch: u64,
}

const LAST_EPOCH: u64 = (1 << 31) - 1;

/// A key's entry, found once for the lookup and for the result that is put there later.
#[derive(Clone, Copy)]
pub struct Place(usize);

impl Cache {
    pub fn new(entries: usize) -> Self {
        assert!(0 < entries && entries <= u32::MAX as usize);
        let none = Entry {
            key: Key(0),
            result: 0,
        };
        Cache {
            entries: vec![none; entries],
            epoch: 1,
        }
    }

    /// Forgets everything: entries of another epoch do not count.
    pub fn step(&mut self) {
        if self.epoch == LAST_EPOCH {
            self.entries.iter_mut().for_each(|e| e.result = 0);
            self.epoch = 0;
        }
        self.epoch += 1;
    }

    pub fn place(&self, key: Key) -> Place {
        let hash = key.0.wrapping_mul(0x9e37_79b9_7f4a_7c15) >> 32;
        Place(((hash * self.entries.len() as u64) >> 32) as usize)
    }

    pub fn get(&self, place: Place, key: Key) -> Option<Edge> {
        // SAFETY: a place is a fraction below 1 of the number of entries, which never changes.
        let entry = unsafe { self.entries.get_unchecked(place.0) };
        if entry.key != key || entry.result >> 33 != self.epoch {
            return None;
        }
        Some(Edge::new(
            (entry.result >> 16 & 0x1ffff) as u32,
            entry.result as u16,
        ))
    }

    pub fn put(&mut self, place: Place, key: Key, e: Edge) {
        let result = self.epoch << 33 | u64::from(e.weight()) << 16 | u64::from(e.node());
        // SAFETY: as in `get`.
        unsafe { *self.entries.get_unchecked_mut(place.0) = Entry { key, result } }
    }
}
