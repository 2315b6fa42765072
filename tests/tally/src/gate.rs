//! "Each gate is 2 by 2 numbers, rows output (fresh), columns input (middle)."

use crate::field::{minus, Weight, H, I, ROOT};
use crate::tensor::Tensor;

#[derive(Clone, Copy, Debug, PartialEq, Eq)]
pub enum Name {
    X,
    Y,
    Z,
    H,
    S,
    SD,
    T,
    TD,
    CX,
    CZ,
    SW,
}

pub const NAMES: [(Name, &str); 11] = [
    (Name::X, "X"),
    (Name::Y, "Y"),
    (Name::Z, "Z"),
    (Name::H, "H"),
    (Name::S, "S"),
    (Name::SD, "SD"),
    (Name::T, "T"),
    (Name::TD, "TD"),
    (Name::CX, "CX"),
    (Name::CZ, "CZ"),
    (Name::SW, "SW"),
];

impl Name {
    pub fn read(field: &[u8]) -> Option<Name> {
        let found = NAMES.iter().find(|(_, word)| word.as_bytes() == field);
        found.map(|&(name, _)| name)
    }

    pub fn word(self) -> &'static str {
        let found = NAMES.iter().find(|&&(name, _)| name == self);
        found.expect("every name is listed").1
    }

    pub fn qubits(self) -> usize {
        match self {
            Name::CX | Name::CZ | Name::SW => 2,
            _ => 1,
        }
    }
}

/// A gate on its qubits, as many as its name has.
#[derive(Clone, Debug, PartialEq, Eq)]
pub struct Gate {
    pub name: Name,
    pub qubits: Vec<u32>,
}

/// "Qubit q (0 to 7) owns three: input 3q, middle 3q+1, fresh 3q+2."
pub fn input(q: u32) -> u32 {
    3 * q
}

pub fn middle(q: u32) -> u32 {
    3 * q + 1
}

pub fn fresh(q: u32) -> u32 {
    3 * q + 2
}

/// "X 0 1 1 0; Y 0 -i i 0; Z 1 0 0 -1; H h h h -h. Diagonal ones are 1 and: S 256, SD 65281, T 16,
/// TD 61441."
pub fn matrix(name: Name) -> Option<[[Weight; 2]; 2]> {
    let diagonal = |w| [[1, 0], [0, w]];
    Some(match name {
        Name::X => [[0, 1], [1, 0]],
        Name::Y => [[0, minus(I)], [I, 0]],
        Name::Z => diagonal(minus(1)),
        Name::H => [[H, H], [H, minus(H)]],
        Name::S => diagonal(I),
        Name::SD => diagonal(65_281),
        Name::T => diagonal(ROOT),
        Name::TD => diagonal(61_441),
        Name::CX | Name::CZ | Name::SW => return None,
    })
}

/// The gate as a tensor over the middle and the fresh indices of its qubits.
pub fn tensor(gate: &Gate) -> Tensor {
    let indices = gate
        .qubits
        .iter()
        .fold(0, |s, &q| s | 1 << middle(q) | 1 << fresh(q));
    Tensor::from_fn(indices, |v| {
        let bit = |k: u32| v >> k & 1;
        let a = gate.qubits[0];
        let (ma, fa) = (bit(middle(a)), bit(fresh(a)));
        if let Some(rows) = matrix(gate.name) {
            return rows[fa as usize][ma as usize];
        }
        let b = gate.qubits[1];
        entry(gate.name, (ma, fa), (bit(middle(b)), bit(fresh(b))))
    })
}

/// "CX a b: 1 where a's fresh equals its middle and b's fresh is b's middle plus a's middle modulo
/// 2. CZ a b: fresh equals middle on both, times -1 where both are 1. SW exchanges them. Other
/// entries are 0."
fn entry(name: Name, (ma, fa): (u32, u32), (mb, fb): (u32, u32)) -> Weight {
    match name {
        Name::CX => Weight::from(fa == ma && fb == (mb + ma) % 2),
        Name::CZ if fa == ma && fb == mb => {
            if ma == 1 && mb == 1 {
                minus(1)
            } else {
                1
            }
        }
        Name::SW => Weight::from(fa == mb && fb == ma),
        _ => 0,
    }
}

/// "the tensor that is 1 where input equals middle for each qubit below n, else 0"
pub fn unit(n: u32) -> Tensor {
    let indices = (0..n).fold(0, |s, q| s | 1 << input(q) | 1 << middle(q));
    Tensor::from_fn(indices, |v| {
        let equal = |q| v >> input(q) & 1 == v >> middle(q) & 1;
        Weight::from((0..n).all(equal))
    })
}
