//! Dense matrices over the field: the plain way, 4^n numbers for a list and a pass over them for each gate.

use crate::field::{self, MODULUS};
use crate::text::{Answer, Gate, Kind, Lists};

/// A matrix of a list, row after row; a gate combines rows, which are its outputs.
#[derive(Default)]
struct Matrix {
    side: usize,
    entries: Vec<u32>,
}

#[derive(Default)]
pub struct Dense {
    lists: Lists,
    first: Matrix,
    second: Matrix,
}

/// How a gate scales: by a power of two and perhaps by -1. The gates have no other factors, and their products with a
/// weight fit 32 bits.
#[derive(Clone, Copy)]
struct Factor {
    shift: u32,
    negative: bool,
}

fn reduce(x: u32) -> u32 {
    let (low, high) = (x & 0xffff, x >> 16);
    let d = low.wrapping_sub(high);
    d.wrapping_add(if low < high { MODULUS } else { 0 })
}

fn negate(x: u32) -> u32 {
    if x == 0 {
        0
    } else {
        MODULUS - x
    }
}

fn scale(row: &mut [u32], f: Factor) {
    if f.negative {
        row.iter_mut()
            .for_each(|x| *x = negate(reduce(*x << f.shift)));
    } else {
        row.iter_mut().for_each(|x| *x = reduce(*x << f.shift));
    }
}

/// h is -2040, so both rows are 2040 times a sum that is negated.
fn hadamard(upper: &mut [u32], lower: &mut [u32]) {
    for (x, y) in upper.iter_mut().zip(lower) {
        let sum = reduce(2 * MODULUS - *x - *y);
        let difference = reduce(MODULUS + *y - *x);
        *x = reduce(2040 * sum);
        *y = reduce(2040 * difference);
    }
}

fn factor(kind: Kind) -> Factor {
    let (shift, negative) = match kind {
        Kind::Z | Kind::Cz => (0, true),
        Kind::S => (8, false),
        Kind::Sd => (8, true),
        Kind::T => (4, false),
        Kind::Td => (12, true),
        _ => unreachable!("not a diagonal gate"),
    };
    Factor { shift, negative }
}

impl Matrix {
    fn unit(&mut self, qubits: u8) {
        self.side = 1 << qubits;
        self.entries.clear();
        self.entries.resize(self.side * self.side, 0);
        for i in 0..self.side {
            self.entries[i * self.side + i] = 1;
        }
    }

    fn row(&mut self, i: usize) -> &mut [u32] {
        &mut self.entries[i * self.side..(i + 1) * self.side]
    }

    /// Rows i and j, i below j.
    fn rows(&mut self, i: usize, j: usize) -> (&mut [u32], &mut [u32]) {
        let (head, tail) = self.entries.split_at_mut(j * self.side);
        (
            &mut head[i * self.side..(i + 1) * self.side],
            &mut tail[..self.side],
        )
    }

    fn swap(&mut self, i: usize, j: usize) {
        let (x, y) = self.rows(i, j);
        x.swap_with_slice(y);
    }

    fn apply(&mut self, g: Gate) {
        let (a, b) = (1 << g.a, 1 << g.b);
        for i in 0..self.side {
            match g.kind {
                Kind::X if i & a == 0 => self.swap(i, i | a),
                Kind::Cx if i & a != 0 && i & b == 0 => self.swap(i, i | b),
                Kind::Sw if i & a != 0 && i & b == 0 => {
                    let j = i ^ a ^ b;
                    self.swap(i.min(j), i.max(j));
                }
                Kind::Y if i & a == 0 => self.pauli_y(i, i | a),
                Kind::H if i & a == 0 => {
                    let (x, y) = self.rows(i, i | a);
                    hadamard(x, y);
                }
                Kind::Z | Kind::S | Kind::Sd | Kind::T | Kind::Td if i & a != 0 => {
                    scale(self.row(i), factor(g.kind))
                }
                Kind::Cz if i & a != 0 && i & b != 0 => scale(self.row(i), factor(g.kind)),
                _ => {}
            }
        }
    }

    fn pauli_y(&mut self, i: usize, j: usize) {
        self.swap(i, j);
        scale(self.row(i), factor(Kind::Sd));
        scale(self.row(j), factor(Kind::S));
    }
}

/// The first is a multiple of the second by the ratio of their first nonzero entries, or by none.
fn compare(a: &[u32], b: &[u32]) -> Answer {
    if a == b {
        return Answer::Same;
    }
    let (Some(i), Some(j)) = (first_nonzero(a), first_nonzero(b)) else {
        return Answer::Differ;
    };
    let f = field::mul(a[i], inverse(b[j]));
    if i == j && a.iter().zip(b).all(|(&x, &y)| x == field::mul(f, y)) {
        Answer::Factor(f)
    } else {
        Answer::Differ
    }
}

fn first_nonzero(entries: &[u32]) -> Option<usize> {
    entries.iter().position(|&x| x != 0)
}

/// The power 65535.
fn inverse(w: u32) -> u32 {
    let mut power = 1;
    for _ in 0..16 {
        power = field::mul(field::mul(power, power), w);
    }
    power
}

impl Dense {
    #[inline(never)]
    pub fn verdict(&mut self, text: &[u8]) -> Answer {
        if let Err(r) = self.lists.read(text) {
            return Answer::No(r);
        }
        let lists = [
            (&mut self.first, &self.lists.first),
            (&mut self.second, &self.lists.second),
        ];
        for (matrix, gates) in lists {
            matrix.unit(self.lists.qubits);
            gates.iter().for_each(|&g| matrix.apply(g));
        }
        compare(&self.first.entries, &self.second.entries)
    }
}
