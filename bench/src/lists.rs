//! Seeded lists of gates, by family.

use crate::random::Random;
use crate::text::{Gate, Kind};

#[derive(Clone, Copy, Debug, PartialEq, Eq)]
pub enum Family {
    Clifford,
    CliffordT,
    Ghz,
    Reversible,
    Diagonal,
}

pub const FAMILIES: [Family; 5] = [
    Family::Clifford,
    Family::CliffordT,
    Family::Ghz,
    Family::Reversible,
    Family::Diagonal,
];

impl Family {
    pub fn name(self) -> &'static str {
        match self {
            Family::Clifford => "clifford",
            Family::CliffordT => "clifford+t",
            Family::Ghz => "ghz",
            Family::Reversible => "reversible",
            Family::Diagonal => "diagonal",
        }
    }

    pub fn named(name: &str) -> Option<Self> {
        FAMILIES.into_iter().find(|f| f.name() == name)
    }

    /// The gates that a rewriting may put in.
    pub fn kinds(self) -> &'static [Kind] {
        use Kind::*;
        match self {
            Family::Clifford | Family::Ghz => &[H, S, Sd, X, Y, Z, Cx, Cz, Sw],
            Family::CliffordT => &[H, S, Sd, T, Td, X, Y, Z, Cx, Cz, Sw],
            Family::Reversible => &[X, Cx, Sw],
            Family::Diagonal => &[Z, S, Sd, T, Td, Cz],
        }
    }

    /// A list of so many gates on n qubits, n at least 2.
    pub fn list(self, n: u8, gates: usize, random: &mut Random) -> Vec<Gate> {
        let mut list = Vec::new();
        while list.len() < gates {
            match self {
                Family::Ghz => ghz(n, random, &mut list),
                Family::Reversible => reversible(n, random, &mut list),
                _ => list.push(gate(self.kinds(), n, random)),
            }
        }
        list.truncate(gates);
        list
    }
}

pub fn single(kind: Kind, q: u8) -> Gate {
    Gate { kind, a: q, b: q }
}

pub fn pair(kind: Kind, a: u8, b: u8) -> Gate {
    Gate { kind, a, b }
}

/// So many qubits out of n, all different.
fn qubits<const K: usize>(n: u8, random: &mut Random) -> [u8; K] {
    let mut all: Vec<u8> = (0..n).collect();
    [(); K].map(|()| all.swap_remove(random.below(all.len())))
}

pub fn gate(kinds: &[Kind], n: u8, random: &mut Random) -> Gate {
    let kind = random.pick(kinds);
    match kind {
        Kind::Cx | Kind::Cz | Kind::Sw => {
            let [a, b] = qubits(n, random);
            pair(kind, a, b)
        }
        _ => single(kind, random.below(usize::from(n)) as u8),
    }
}

/// The state of all zeros or all ones is prepared, gets a phase, and is undone.
fn ghz(n: u8, random: &mut Random, list: &mut Vec<Gate>) {
    let mut steps = vec![single(Kind::H, 0)];
    steps.extend((1..n).map(|q| pair(Kind::Cx, q - 1, q)));
    list.extend(&steps);
    list.push(single(
        random.pick(&[Kind::Z, Kind::S, Kind::T, Kind::Td]),
        n - 1,
    ));
    list.extend(steps.iter().rev());
}

/// One gate that permutes the basis, at times a Toffoli gate in 15 steps.
fn reversible(n: u8, random: &mut Random, list: &mut Vec<Gate>) {
    if n > 2 && random.below(4) == 0 {
        let [a, b, c] = qubits(n, random);
        list.extend(toffoli(a, b, c));
    } else {
        list.push(gate(Family::Reversible.kinds(), n, random));
    }
}

fn toffoli(a: u8, b: u8, c: u8) -> [Gate; 15] {
    use Kind::*;
    [
        single(H, c),
        pair(Cx, b, c),
        single(Td, c),
        pair(Cx, a, c),
        single(T, c),
        pair(Cx, b, c),
        single(Td, c),
        pair(Cx, a, c),
        single(T, b),
        single(T, c),
        single(H, c),
        pair(Cx, a, b),
        single(T, a),
        single(Td, b),
        pair(Cx, a, b),
    ]
}

fn name(kind: Kind) -> &'static str {
    match kind {
        Kind::X => "X",
        Kind::Y => "Y",
        Kind::Z => "Z",
        Kind::H => "H",
        Kind::S => "S",
        Kind::Sd => "SD",
        Kind::T => "T",
        Kind::Td => "TD",
        Kind::Cx => "CX",
        Kind::Cz => "CZ",
        Kind::Sw => "SW",
    }
}

/// The verdict text of two lists.
pub fn text(n: u8, first: &[Gate], second: &[Gate]) -> Vec<u8> {
    let mut text = format!("lines\t{n}\n");
    for (i, list) in [first, second].into_iter().enumerate() {
        if i == 1 {
            text += "=\n";
        }
        for g in list {
            text += &match g.kind {
                Kind::Cx | Kind::Cz | Kind::Sw => format!("{}\t{}\t{}\n", name(g.kind), g.a, g.b),
                _ => format!("{}\t{}\n", name(g.kind), g.a),
            };
        }
    }
    text.into_bytes()
}
