//! The tally, and a session's run on it.

use crate::call::{Answer, Call, Refusal, CLASH, EMPTY, FULL};
use crate::set::Set;
use crate::tensor::Tensor;
use crate::{gate, line, rules, text};

/// "It holds a set of normal tensors, empty at first, and sixteen registers, each empty or a
/// tensor, all empty at first."
#[derive(Clone, Debug)]
pub struct Tally {
    pub set: Set,
    pub registers: [Option<Tensor>; 16],
    pub capacity: usize,
    /// The largest set so far, that of a refused call included.
    pub peak: usize,
    /// Of each accepted `lows` the members of its set on which the tensor depended, in order.
    pub lowered: Vec<u32>,
}

impl Tally {
    pub fn new(capacity: usize) -> Tally {
        Tally {
            set: Set::default(),
            registers: Default::default(),
            capacity,
            peak: 0,
            lowered: Vec::new(),
        }
    }

    pub fn answer(&mut self, line: &[u8]) -> Answer {
        let called = line::read(line).and_then(|call| self.call(&call));
        called.unwrap_or_else(Answer::No)
    }

    pub fn call(&mut self, call: &Call) -> Result<Answer, Refusal> {
        match *call {
            Call::Put { d, w } => self.set(d, |_| Tensor::constant(w)),
            Call::Gate { d, ref gate } => self.set(d, |set| rules::build(set, &gate::tensor(gate))),
            Call::Unit { d, n } => self.set(d, |set| rules::build(set, &gate::unit(n))),
            Call::Add { d, a, b } => {
                let (a, b) = (self.filled(a)?, self.filled(b)?);
                self.set(d, |set| rules::sum(set, &a, &b))
            }
            Call::Cont { d, a, b, m } => {
                let (a, b) = (self.filled(a)?, self.filled(b)?);
                self.set(d, |set| rules::cont(set, &a, &b, m))
            }
            Call::Low { d, a, k } => {
                let a = self.filled(a)?;
                // "7 (a depends on k-1)"
                if a.depends(k - 1) {
                    return Err(CLASH);
                }
                self.set(d, |set| rules::low(set, &a, k))
            }
            Call::Drop { a } => {
                self.filled(a)?;
                self.registers[a] = None;
                Ok(Answer::Ok(self.set.count()))
            }
            Call::Collect => {
                rules::collect(&mut self.set, &self.registers);
                Ok(Answer::Ok(self.set.count()))
            }
            Call::At { a, v } => Ok(Answer::Value(self.filled(a)?.at(v))),
            Call::Cmp { a, b } => Ok(compare(&self.filled(a)?, &self.filled(b)?)),
            // "answers `m` and the register's mask, 0 for a constant"
            Call::On { a } => Ok(Answer::Mask(self.filled(a)?.mask())),
            Call::Lows { d, a, m } => self.lows(d, a, m),
        }
    }

    fn lows(&mut self, d: usize, a: usize, m: u32) -> Result<Answer, Refusal> {
        let a = self.filled(a)?;
        // "A clash is 7, in the place that `low` has it"
        if rules::clash(&a, m) {
            return Err(CLASH);
        }
        let answer = self.set(d, |set| rules::lows(set, &a, m))?;
        self.lowered.push(a.mask() & m);
        Ok(answer)
    }

    fn filled(&self, a: usize) -> Result<Tensor, Refusal> {
        self.registers[a].clone().ok_or(EMPTY)
    }

    /// "A call whose set would exceed the capacity is refused as 8 (full), and set and registers
    /// are as before it." "Register d is set last, after the operands are read, and may equal one
    /// of them."
    fn set(&mut self, d: usize, work: impl FnOnce(&mut Set) -> Tensor) -> Result<Answer, Refusal> {
        let before = self.set.count();
        let t = work(&mut self.set);
        let count = self.set.count();
        self.peak = self.peak.max(count);
        if count > self.capacity {
            self.set.back_to(before);
            return Err(FULL);
        }
        self.registers[d] = Some(t);
        Ok(Answer::Ok(count))
    }
}

/// "answers `same`; or `factor` and f where a is f times b, f not 0 or 1; else `differ`. Zero
/// against nonzero is `differ`."
fn compare(a: &Tensor, b: &Tensor) -> Answer {
    if a == b {
        return Answer::Same;
    }
    if a.is_zero() || b.is_zero() {
        return Answer::Differ;
    }
    a.factor_of(b).map_or(Answer::Differ, Answer::Factor)
}

/// A session so far: "The result gives the code (0 or 9), lines answered, bytes written, the node
/// count and the sixteen registers."
#[derive(Clone, Debug)]
pub struct Run {
    pub tally: Tally,
    pub code: u64,
    pub answers: Vec<Answer>,
    pub output: Vec<u8>,
    room: usize,
}

impl Run {
    /// A session with that capacity and `room` bytes of output.
    pub fn new(capacity: usize, room: usize) -> Run {
        Run {
            tally: Tally::new(capacity),
            code: 0,
            answers: Vec::new(),
            output: Vec::new(),
            room,
        }
    }

    /// "Before a line, if fewer than 16 output bytes remain, the run stops with 9 and the line is
    /// not begun."
    pub fn line(&mut self, line: &[u8]) {
        if self.code == 9 || self.room - self.output.len() < 16 {
            self.code = 9;
            return;
        }
        let answer = self.tally.answer(line);
        self.output.extend(answer.bytes());
        self.answers.push(answer);
    }
}

/// The whole session of a text.
pub fn session(text: &[u8], capacity: usize, room: usize) -> Run {
    let mut run = Run::new(capacity, room);
    for line in text::lines(text) {
        run.line(line);
    }
    run
}
