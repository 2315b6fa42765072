//! What an engine did, counted where somebody asks; the unit type counts nothing and costs nothing.

pub trait Count: Default {
    fn make(&mut self) {}
    fn probe(&mut self) {}
    fn grow(&mut self) {}
    fn lookup(&mut self, _hit: bool) {}
    fn inverse(&mut self, _weight: u32) {}
    fn collect(&mut self, _before: usize, _after: usize) {}
}

impl Count for () {}

#[derive(Clone, Copy, Default)]
pub struct Tally {
    pub makes: u64,
    pub probes: u64,
    pub grows: u64,
    pub lookups: u64,
    pub hits: u64,
    pub inverses: u64,
    /// inverses of 1
    pub trivial: u64,
    pub collections: u64,
    /// nodes before collections, in all
    pub before: u64,
    /// nodes after collections, in all
    pub after: u64,
    /// the most nodes before, and after, a collection
    pub peak: usize,
    pub largest: usize,
}

impl Count for Tally {
    fn make(&mut self) {
        self.makes += 1;
    }

    fn probe(&mut self) {
        self.probes += 1;
    }

    fn grow(&mut self) {
        self.grows += 1;
    }

    fn lookup(&mut self, hit: bool) {
        self.lookups += 1;
        self.hits += u64::from(hit);
    }

    fn inverse(&mut self, weight: u32) {
        self.inverses += 1;
        self.trivial += u64::from(weight == 1);
    }

    fn collect(&mut self, before: usize, after: usize) {
        self.collections += 1;
        self.before += before as u64;
        self.after += after as u64;
        self.peak = self.peak.max(before);
        self.largest = self.largest.max(after);
    }
}
