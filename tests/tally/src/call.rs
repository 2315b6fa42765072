//! The twelve calls, and what a line is answered.

use crate::field::Weight;
use crate::gate::Gate;

#[derive(Clone, Debug, PartialEq, Eq)]
pub enum Call {
    Put {
        d: usize,
        w: Weight,
    },
    Gate {
        d: usize,
        gate: Gate,
    },
    Unit {
        d: usize,
        n: u32,
    },
    Add {
        d: usize,
        a: usize,
        b: usize,
    },
    Cont {
        d: usize,
        a: usize,
        b: usize,
        m: u32,
    },
    Low {
        d: usize,
        a: usize,
        k: u32,
    },
    Drop {
        a: usize,
    },
    Collect,
    At {
        a: usize,
        v: u32,
    },
    Cmp {
        a: usize,
        b: usize,
    },
    On {
        a: usize,
    },
    Lows {
        d: usize,
        a: usize,
        m: u32,
    },
}

/// The number of a refused line.
pub type Refusal = u32;

pub const MALFORMED: Refusal = 1;
pub const REGISTER: Refusal = 2;
pub const EMPTY: Refusal = 3;
pub const RANGE: Refusal = 4;
pub const NAME: Refusal = 5;
pub const EQUAL_QUBITS: Refusal = 6;
pub const CLASH: Refusal = 7;
pub const FULL: Refusal = 8;

#[derive(Clone, Debug, PartialEq, Eq)]
pub enum Answer {
    Ok(usize),
    Value(Weight),
    Same,
    Factor(Weight),
    Differ,
    Mask(u32),
    No(Refusal),
}

impl Answer {
    /// "An answer's fields are parted by one tab, and it ends in LF."
    pub fn bytes(&self) -> Vec<u8> {
        let line = match self {
            Answer::Ok(count) => format!("ok\t{count}\n"),
            Answer::Value(w) => format!("v\t{w}\n"),
            Answer::Same => "same\n".to_string(),
            Answer::Factor(f) => format!("factor\t{f}\n"),
            Answer::Differ => "differ\n".to_string(),
            Answer::Mask(mask) => format!("m\t{mask}\n"),
            Answer::No(number) => format!("no\t{number}\n"),
        };
        line.into_bytes()
    }
}
