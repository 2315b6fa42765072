//! What is measured: for every family and number of qubits a list against a rewriting of itself.

use crate::lists::{self, Family};
use crate::random::Random;
use crate::rewrite;

/// The longest list on record (document 02, request Eight).
pub const LONGEST: usize = 1180;

#[derive(Clone, Copy, Debug, PartialEq, Eq)]
pub enum Variant {
    Same,
    Factor,
    Differ,
}

pub struct Case {
    pub family: Family,
    pub qubits: u8,
    /// gates of the longer list
    pub gates: usize,
    pub text: Vec<u8>,
}

/// As many gates as fit the store: random lists with T fill it from seven qubits on.
fn longest(family: Family, n: u8) -> usize {
    match (family, n) {
        (Family::CliffordT, 7) => 500,
        (Family::CliffordT, 8) => 350,
        _ => LONGEST,
    }
}

/// A list of five sixths of the gates, against a rewriting that has all of them.
pub fn case(family: Family, n: u8, gates: usize, variant: Variant, seed: u64) -> Case {
    let mut random = Random::new(seed);
    let extra = match variant {
        Variant::Same => 0,
        Variant::Factor => 4,
        Variant::Differ => 1,
    };
    let length = gates.saturating_sub(extra);
    let first = family.list(n, length - 2 * (length / 12), &mut random);
    let second = rewrite::equivalent(&first, n, family.kinds(), length, &mut random);
    let second = match variant {
        Variant::Same => second,
        Variant::Factor => rewrite::with_factor(&second, n, &mut random),
        Variant::Differ => rewrite::wrong(&second, n, &mut random),
    };
    Case {
        family,
        qubits: n,
        gates: first.len().max(second.len()),
        text: lists::text(n, &first, &second),
    }
}

/// The cases of a family on n qubits: equivalent lists, at two sizes ones that differ by a factor, at two a wrong gate.
pub fn cases(family: Family, n: u8) -> Vec<Case> {
    let gates = longest(family, n);
    let seed = u64::from(n);
    let mut all = Vec::new();
    let equal = if n == 3 || n == 6 {
        Variant::Factor
    } else {
        Variant::Same
    };
    all.push(case(family, n, gates, equal, seed));
    if n == 4 || n == 8 {
        all.push(case(family, n, gates, Variant::Differ, seed));
    }
    all
}

/// Lists of one family by growing diagrams.
pub fn growth() -> Vec<Case> {
    let sizes = [
        (2, 1180),
        (3, 1180),
        (4, 1180),
        (5, 300),
        (5, 1180),
        (6, 400),
        (6, 1180),
        (7, 300),
        (7, 500),
        (8, 60),
        (8, 120),
        (8, 240),
        (8, 350),
    ];
    let size = |(n, gates)| case(Family::CliffordT, n, gates, Variant::Same, u64::from(n));
    sizes.into_iter().map(size).collect()
}
