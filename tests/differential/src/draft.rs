//! A session text in the making. A tally runs along, so that lines can be chosen by what registers
//! hold and tables stay small.

use crate::rng::Rng;
use crate::spoil::spoil;
use tally::call::{Answer, Call};
use tally::gate::{fresh, middle, Gate};
use tally::line;
use tally::session::Tally;
use tally::tensor::members;

/// The sets of all indices, of the qubits' middles and of their fresh indices.
pub const ALL: u32 = 0xFF_FFFF;
const MIDDLES: u32 = 0o2222_2222;
const FRESH: u32 = 0o4444_4444;

pub struct Draft<'a> {
    pub rng: &'a mut Rng,
    pub text: Vec<u8>,
    pub tally: Tally,
    /// Sum and contraction of tables over more indices than this are left out.
    pub widest: u32,
    /// Registers 0 to this one are used.
    pub last: usize,
    /// Percent of lines that are spoiled.
    pub spoiled: usize,
}

impl Draft<'_> {
    pub fn new(rng: &mut Rng, capacity: usize) -> Draft<'_> {
        Draft {
            rng,
            text: Vec::new(),
            tally: Tally::new(capacity),
            widest: 10,
            last: 15,
            spoiled: 0,
        }
    }

    pub fn say(&mut self, line: &str) {
        let mut line = line.replace(' ', "\t").into_bytes();
        if self.rng.percent(self.spoiled) {
            line = spoil(self.rng, &line);
        }
        self.add(&line);
    }

    /// A spoiled line may hold LFs, so it may be several.
    pub fn add(&mut self, lines: &[u8]) {
        for line in lines.split(|&b| b == b'\n') {
            if self.small(line) {
                self.answer(line);
            }
        }
    }

    fn answer(&mut self, line: &[u8]) -> Answer {
        self.text.extend(line);
        self.text.push(b'\n');
        self.tally.answer(line)
    }

    fn small(&self, line: &[u8]) -> bool {
        let width = match line::read(line) {
            Ok(Call::Add { a, b, .. } | Call::Cont { a, b, .. }) => {
                (self.support(a) | self.support(b)).count_ones()
            }
            Ok(Call::Unit { n, .. }) => 2 * n,
            _ => 0,
        };
        width <= self.widest
    }

    pub fn support(&self, a: usize) -> u32 {
        self.tally.registers[a].as_ref().map_or(0, |t| t.support())
    }

    pub fn any(&mut self) -> usize {
        self.rng.between(0, self.last)
    }

    /// Mostly a filled register, if there is one.
    pub fn filled(&mut self) -> usize {
        let held = |a: &usize| self.tally.registers[*a].is_some();
        let filled: Vec<usize> = (0..16).filter(held).collect();
        if filled.is_empty() || self.rng.percent(4) {
            return self.any();
        }
        *self.rng.pick(&filled)
    }

    pub fn gate(&mut self, d: usize, gate: &Gate) {
        let qubits: String = gate.qubits.iter().map(|q| format!(" {q}")).collect();
        self.say(&format!("gate {d} {}{qubits}", gate.name.word()));
    }

    /// The gate applied to register d by way of register t, as a verdict does it, or with its fresh
    /// indices lowered together.
    pub fn apply(&mut self, gate: &Gate, d: usize, t: usize) {
        let m = gate.qubits.iter().fold(0, |m, &q| m | 1u32 << middle(q));
        let lowered = gate.qubits.iter().fold(0, |m, &q| m | 1 << fresh(q));
        self.gate(t, gate);
        self.say(&format!("cont {d} {t} {d} {m}"));
        match self.rng.percent(40) {
            true => self.say(&format!("lows {d} {d} {lowered}")),
            false => self.singly(d, d, lowered),
        }
        if self.rng.percent(70) {
            self.say(&format!("drop {t}"));
        }
        if self.rng.percent(60) {
            self.say("collect");
        }
    }

    /// Register d becomes a with the indices of m lowered one after the other, in rising order.
    pub fn singly(&mut self, d: usize, a: usize, m: u32) {
        let operands = std::iter::once(a).chain(std::iter::repeat(d));
        for (k, a) in members(m).zip(operands) {
            self.say(&format!("low {d} {a} {k}"));
        }
    }

    /// A set to contract two registers over: indices of theirs, any indices, or none.
    pub fn mask(&mut self, a: usize, b: usize) -> u32 {
        let (a, b) = (self.support(a), self.support(b));
        let some = self.rng.next() as u32 & ALL;
        match self.rng.weighted(&[35, 25, 15, 10, 15]) {
            0 => (a | b) & some,
            1 => a & b,
            2 => some & self.rng.next() as u32,
            3 => some,
            _ => 0,
        }
    }

    /// An index of register a to lower, mostly one that may be lowered.
    pub fn lowered(&mut self, a: usize) -> u32 {
        let support = self.support(a);
        let free: Vec<u32> = members(support & !(support << 1) & !1).collect();
        if free.is_empty() || self.rng.percent(25) {
            return self.rng.between(1, 23) as u32;
        }
        *self.rng.pick(&free)
    }

    /// A set of indices of register a to lower together, mostly one that may be lowered; now and
    /// then one that clashes, has index 0, is too large or is empty.
    pub fn lowered_set(&mut self, a: usize) -> u32 {
        let support = self.support(a);
        let some = self.rng.next() as u32 & ALL;
        match self.rng.weighted(&[20, 20, 15, 5, 10, 10, 6, 4, 4, 3, 3]) {
            0 => free(support, support),
            1 => free(support, support & some),
            2 => free(support, some),
            3 => free(support, ALL),
            4 => run(self.rng),
            5 => some & *self.rng.pick(&[MIDDLES, FRESH, MIDDLES | FRESH]),
            6 => (support << 1 | support >> 1) & ALL & !1,
            7 => support,
            8 => some | 1,
            9 => some | (ALL + 1),
            _ => 0,
        }
    }
}

/// Those of the wanted indices that may be lowered together in a tensor over `support`.
pub fn free(support: u32, wanted: u32) -> u32 {
    members(wanted & !1).fold(0, |m, k| {
        let clash = support & !m & 1 << (k - 1) != 0;
        if clash {
            m
        } else {
            m | 1 << k
        }
    })
}

/// Neighbouring indices.
fn run(rng: &mut Rng) -> u32 {
    let k = rng.between(1, 23);
    let last = (k + rng.below(6)).min(23);
    (k..=last).fold(0, |m, k| m | 1 << k)
}
