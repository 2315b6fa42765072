//! The engines that are compared, each with its memory allocated once.

use crate::dense::Dense;
use crate::engine::Engine;

/// The largest capacity in nodes.
pub const CAPACITY: usize = 65535;

pub trait Judge {
    fn name(&self) -> &'static str;

    /// The answer line of a text.
    fn judge(&mut self, text: &[u8], capacity: usize) -> Vec<u8>;
}

impl Judge for Engine<()> {
    fn name(&self) -> &'static str {
        "unverified"
    }

    fn judge(&mut self, text: &[u8], capacity: usize) -> Vec<u8> {
        self.verdict(text, capacity).print()
    }
}

impl Judge for Dense {
    fn name(&self) -> &'static str {
        "dense"
    }

    /// A matrix has no nodes, so nothing is ever full.
    fn judge(&mut self, text: &[u8], _capacity: usize) -> Vec<u8> {
        self.verdict(text).print()
    }
}

#[cfg(feature = "proved")]
pub struct Proved {
    store: Vec<u8>,
    cache: Vec<u64>,
}

#[cfg(feature = "proved")]
impl Proved {
    pub fn new(words: usize) -> Self {
        Proved {
            store: vec![0; 16 * CAPACITY],
            cache: vec![0; words],
        }
    }
}

#[cfg(feature = "proved")]
impl Judge for Proved {
    fn name(&self) -> &'static str {
        "proved"
    }

    fn judge(&mut self, text: &[u8], capacity: usize) -> Vec<u8> {
        let mut out = [0; 32];
        let store = &mut self.store[..16 * capacity];
        let result = jorehyi::verdict(text, store, &mut self.cache, &mut out);
        assert_eq!(result.code, 0, "32 output bytes are enough");
        out[..result.bytes as usize].to_vec()
    }
}

/// All engines: those that are counted against the capacity, the proved one first if it is linked, and then the dense
/// one.
pub struct Judges {
    pub diagrams: Vec<Box<dyn Judge>>,
    pub dense: Dense,
}

impl Judges {
    /// Engines that remember as many results as the proved one does in so many words.
    pub fn new(words: usize) -> Self {
        let unverified = Box::new(Engine::<()>::new(words / 4));
        #[cfg(feature = "proved")]
        let diagrams: Vec<Box<dyn Judge>> = vec![Box::new(Proved::new(words)), unverified];
        #[cfg(not(feature = "proved"))]
        let diagrams: Vec<Box<dyn Judge>> = vec![unverified];
        Judges {
            diagrams,
            dense: Dense::default(),
        }
    }
}
