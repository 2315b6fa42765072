//! What is held against the tally.

pub use jorehyi::{Edge, Session, Verdict};

pub trait Engine {
    fn session(
        &mut self,
        text: &[u8],
        store: &mut [u8],
        cache: &mut [u64],
        out: &mut [u8],
    ) -> Session;
    fn verdict(
        &mut self,
        text: &[u8],
        store: &mut [u8],
        cache: &mut [u64],
        out: &mut [u8],
    ) -> Verdict;
}

/// The proved engine, from its archive.
pub struct Proved;

impl Engine for Proved {
    fn session(
        &mut self,
        text: &[u8],
        store: &mut [u8],
        cache: &mut [u64],
        out: &mut [u8],
    ) -> Session {
        jorehyi::session(text, store, cache, out)
    }

    fn verdict(
        &mut self,
        text: &[u8],
        store: &mut [u8],
        cache: &mut [u64],
        out: &mut [u8],
    ) -> Verdict {
        jorehyi::verdict(text, store, cache, out)
    }
}
