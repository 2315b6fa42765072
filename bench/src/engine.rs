//! The engine of document 01 without proofs: the same diagrams, the same recursions, the same calls for each gate,
//! written for speed. It answers what the proved engine answers, `no 8` at the same line included.

mod cache;
pub mod count;
mod gates;
mod operations;
mod store;

use crate::field::{self, Inverses};
use crate::text::{Answer, Gate, Lists, Refusal, FULL};
use cache::Cache;
use count::Count;
use operations::Outcome;
use store::{Edge, Store};

pub struct Engine<C> {
    store: Store,
    cache: Cache,
    inverses: Inverses,
    lists: Lists,
    pub count: C,
}

impl<C: Count> Engine<C> {
    /// An engine that remembers so many results.
    pub fn new(entries: usize) -> Self {
        Engine {
            store: Store::new(),
            cache: Cache::new(entries),
            inverses: Inverses::new(),
            lists: Lists::default(),
            count: C::default(),
        }
    }

    #[inline(never)]
    pub fn verdict(&mut self, text: &[u8], capacity: usize) -> Answer {
        let mut lists = std::mem::take(&mut self.lists);
        let answer = match lists.read(text) {
            Ok(()) => self.judge(&lists, capacity).unwrap_or_else(full),
            Err(r) => Answer::No(r),
        };
        self.lists = lists;
        answer
    }

    /// Both lists, each in its register, and the registers compared; or the line at which the store is full.
    fn judge(&mut self, lists: &Lists, capacity: usize) -> Result<Answer, usize> {
        self.store.start(capacity);
        self.cache.step();
        let mut registers = [Edge::ZERO; 2];
        self.list(&mut registers[..1], lists.qubits, &lists.first, 1)?;
        let parting = lists.first.len() + 2;
        self.list(&mut registers, lists.qubits, &lists.second, parting)?;
        Ok(self.compare(registers[0], registers[1]))
    }

    /// Runs a list whose head is at `line` in the last register.
    fn list(
        &mut self,
        registers: &mut [Edge],
        qubits: u8,
        gates: &[Gate],
        line: usize,
    ) -> Result<(), usize> {
        let r = registers.len() - 1;
        // all nodes of a list that has ended are in use until the end
        let fixed = self.store.count();
        registers[r] = self.unit(qubits).ok_or(line)?;
        for (i, &g) in gates.iter().enumerate() {
            registers[r] = self.apply(g, registers[r]).ok_or(line + 1 + i)?;
            let before = self.store.count();
            self.store.collect(registers, fixed);
            self.cache.step();
            self.count.collect(before, self.store.count());
        }
        Ok(())
    }

    /// The gate's tensor, contracted with `e` over the middles of its qubits; then their fresh indices become the
    /// middles.
    fn apply(&mut self, g: Gate, e: Edge) -> Outcome {
        let tensor = self.gate(g)?;
        let (p, q) = (u32::from(g.a.min(g.b)), u32::from(g.a.max(g.b)));
        let e = self.contract(tensor, e, 1 << (3 * p + 1) | 1 << (3 * q + 1))?;
        let e = self.lower(e, 3 * p + 2)?;
        if p == q {
            return Some(e);
        }
        self.lower(e, 3 * q + 2)
    }

    /// Tensors are the same, or multiples, only at the same node.
    fn compare(&self, a: Edge, b: Edge) -> Answer {
        if a == b {
            Answer::Same
        } else if a.node() != b.node() || a.weight() == 0 || b.weight() == 0 {
            Answer::Differ
        } else {
            Answer::Factor(field::mul(a.weight(), self.inverses.of(b.weight())))
        }
    }
}

fn full(line: usize) -> Answer {
    Answer::No(Refusal { number: FULL, line })
}
