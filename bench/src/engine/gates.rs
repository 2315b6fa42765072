//! The unit and the gates as tensors (document 01, "Gates").

use super::count::Count;
use super::operations::Outcome;
use super::store::Edge;
use super::Engine;
use crate::text::{Gate, Kind};

/// Rows output (fresh), columns input (middle).
fn matrix(kind: Kind) -> [[u32; 2]; 2] {
    match kind {
        Kind::X => [[0, 1], [1, 0]],
        Kind::Y => [[0, 65281], [256, 0]],
        Kind::Z => [[1, 0], [0, 65536]],
        Kind::H => [[63497, 63497], [63497, 2040]],
        Kind::S => [[1, 0], [0, 256]],
        Kind::Sd => [[1, 0], [0, 65281]],
        Kind::T => [[1, 0], [0, 16]],
        Kind::Td => [[1, 0], [0, 61441]],
        Kind::Cx | Kind::Cz | Kind::Sw => unreachable!("a gate on two qubits"),
    }
}

/// The output bits of the two qubits from their input bits, the first qubit's counting double; and the entry there.
fn image(kind: Kind, input: usize) -> (usize, u32) {
    match kind {
        Kind::Cx => ([0, 1, 3, 2][input], 1),
        Kind::Cz => (input, [1, 1, 1, 65536][input]),
        Kind::Sw => ([0, 2, 1, 3][input], 1),
        _ => unreachable!("a gate on one qubit"),
    }
}

fn constant(weight: u32) -> Edge {
    Edge::new(weight, 0)
}

impl<C: Count> Engine<C> {
    /// 1 where input equals middle for each of n qubits, else 0.
    pub(super) fn unit(&mut self, n: u8) -> Outcome {
        let mut e = constant(1);
        for q in (0..u32::from(n)).rev() {
            let a = self.join(3 * q + 1, e, Edge::ZERO)?;
            let b = self.join(3 * q + 1, Edge::ZERO, e)?;
            e = self.join(3 * q, a, b)?;
        }
        Some(e)
    }

    pub(super) fn gate(&mut self, g: Gate) -> Outcome {
        if g.a == g.b {
            return self.single(matrix(g.kind), u32::from(g.a));
        }
        // the first qubit is the one of the lower indices
        let swapped = g.b < g.a;
        let order = |i: usize| if swapped { [0, 2, 1, 3][i] } else { i };
        let mut entries = [[0; 4]; 4];
        for input in 0..4 {
            let (output, entry) = image(g.kind, input);
            entries[order(input)][order(output)] = entry;
        }
        self.pair(entries, u32::from(g.a.min(g.b)), u32::from(g.a.max(g.b)))
    }

    fn single(&mut self, m: [[u32; 2]; 2], q: u32) -> Outcome {
        let l = self.join(3 * q + 2, constant(m[0][0]), constant(m[1][0]))?;
        let h = self.join(3 * q + 2, constant(m[0][1]), constant(m[1][1]))?;
        self.join(3 * q + 1, l, h)
    }

    /// A gate on p and q, p below q: by its input, then its output, p's bit counting double.
    fn pair(&mut self, m: [[u32; 4]; 4], p: u32, q: u32) -> Outcome {
        let mut halves = [Edge::ZERO; 2];
        for (x, half) in halves.iter_mut().enumerate() {
            let mut parts = [Edge::ZERO; 2];
            for (y, part) in parts.iter_mut().enumerate() {
                let block = [0, 1].map(|r: usize| [0, 1].map(|c: usize| m[2 * x + c][2 * y + r]));
                *part = self.single(block, q)?;
            }
            *half = self.join(3 * p + 2, parts[0], parts[1])?;
        }
        self.join(3 * p + 1, halves[0], halves[1])
    }
}
