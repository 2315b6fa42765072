//! A plain engine over `Diagram`. It reads lines as the tally does, but for two blunders: what is
//! tested here is the comparison of what follows.

use super::diagram::{scaled, Blunder, Diagram, Edge, Node, ZERO};
use crate::engine::{self, Engine, Session, Verdict};
use tally::call::{Answer, Call, Refusal, CLASH, EMPTY, FULL, RANGE};
use tally::field::{inverse, minus, times, H};
use tally::gate::{self, fresh, middle, Gate, Name};
use tally::tensor::{members, Tensor, INDICES};
use tally::verdict::{read, Fault, Ruling};
use tally::{capacity, line, text};

pub const BLUNDERS: [(Blunder, &str); 37] = [
    (
        Blunder::StaleAfterCollection,
        "a remembered result after a collection",
    ),
    (
        Blunder::StaleAfterRefusal,
        "a remembered result of a refused call",
    ),
    (
        Blunder::StaleAfterSession,
        "a remembered result of an earlier session",
    ),
    (Blunder::ForgetsSet, "a contraction remembered without S"),
    (Blunder::NoPowerOfTwo, "no power of 2 at constants"),
    (Blunder::EqualEdges, "a node with equal edges"),
    (Blunder::KeepsRefused, "nodes of a refused call kept"),
    (Blunder::DividesByZero, "division by a low weight of 0"),
    (Blunder::HighFirst, "high before low"),
    (Blunder::FullEarly, "full too early"),
    (Blunder::StopsEarly, "9 too early"),
    (Blunder::StuckAtSame, "a verdict stuck at same"),
    (Blunder::StuckAtDiffer, "a verdict stuck at differ"),
    (
        Blunder::OwnIndexUnmasked,
        "a node's mask without its own index",
    ),
    (
        Blunder::HighUnmasked,
        "a node's mask without its high edge's",
    ),
    (Blunder::MasksUnmoved, "masks not moved by a collection"),
    (Blunder::MasksOfRefused, "masks of a refused call kept"),
    (Blunder::TopUnmasked, "on without the top"),
    (Blunder::EmptyMasked, "on answered for an empty register"),
    (Blunder::ClashAtIndex, "7 where a depends on k"),
    (Blunder::FallsTwice, "a set lowered from above"),
    (
        Blunder::KeepsSingles,
        "nodes of single lowerings kept by lows",
    ),
    (Blunder::ClashAbove, "7 of lows where a depends on k+1"),
    (
        Blunder::ClashWhereUsed,
        "7 of lows only where a depends on k",
    ),
    (Blunder::ClashInChain, "7 of lows where k-1 is in the set"),
    (Blunder::LowersZero, "index 0 accepted by lows"),
    (Blunder::ForgetsLowered, "lows remembered without its set"),
    (Blunder::IndexAsSet, "low remembered as lows"),
    (
        Blunder::LowersBeyond,
        "a number above 16777215 accepted by lows",
    ),
    (
        Blunder::LoweredAfterCollection,
        "a remembered result of lows after a collection",
    ),
    (
        Blunder::LoweredAfterRefusal,
        "a remembered result of lows of a refused call",
    ),
    (
        Blunder::LoweredAfterSession,
        "a remembered result of lows of an earlier session",
    ),
    (Blunder::NegatedY, "Y with the other sign"),
    (Blunder::InverseOfS, "SD for S"),
    (Blunder::LastOfH, "H's last entry without its sign"),
    (Blunder::ExchangedCx, "CX with control and target exchanged"),
    (Blunder::MiddleOfSw, "SW's middle rows exchanged"),
];

pub struct Model {
    diagram: Diagram,
    registers: [Option<Edge>; 16],
    capacity: usize,
}

impl Model {
    pub fn new(blunder: Blunder) -> Model {
        Model {
            diagram: Diagram::new(blunder),
            registers: [None; 16],
            capacity: 0,
        }
    }

    pub fn right() -> Model {
        Model::new(Blunder::Nothing)
    }

    fn has(&self, blunder: Blunder) -> bool {
        self.diagram.blunder == blunder
    }

    fn start(&mut self, store_bytes: usize) {
        let early = usize::from(self.has(Blunder::FullEarly));
        self.capacity = capacity(store_bytes).saturating_sub(early);
        self.registers = [None; 16];
        self.diagram.clear();
    }

    fn read(&self, line: &[u8]) -> Result<Call, Refusal> {
        match line::read(line) {
            Err(RANGE) if line.starts_with(b"lows\t") => line::read(&self.overlooked(line)),
            read => read,
        }
    }

    /// A line of `lows` without what a blunder overlooks in its set.
    fn overlooked(&self, line: &[u8]) -> Vec<u8> {
        let tab = line.iter().rposition(|&b| b == b'\t').expect("fields");
        let (before, last) = line.split_at(tab + 1);
        let m = text::number(last).expect("a number");
        let kept = match self.diagram.blunder {
            Blunder::LowersZero => m & !1,
            Blunder::LowersBeyond => m & 0xFF_FFFF,
            _ => m,
        };
        [before, kept.to_string().as_bytes()].concat()
    }

    fn call(&mut self, call: &Call) -> Result<Answer, Refusal> {
        match *call {
            Call::Put { d, w } => self.set(d, |_| scaled(Edge { weight: 1, node: 0 }, w)),
            Call::Gate { d, ref gate } => {
                let tensor = self.gate(gate);
                self.set(d, |g| g.build(&tensor))
            }
            Call::Unit { d, n } => self.set(d, |g| g.build(&gate::unit(n))),
            Call::Add { d, a, b } => {
                let (a, b) = (self.filled(a)?, self.filled(b)?);
                self.set(d, |g| g.sum(a, b))
            }
            Call::Cont { d, a, b, m } => {
                let (a, b) = (self.filled(a)?, self.filled(b)?);
                self.set(d, |g| g.cont(a, b, m))
            }
            Call::Low { d, a, k } => {
                let a = self.filled(a)?;
                let taken = k - u32::from(!self.has(Blunder::ClashAtIndex));
                if self.depends(a, taken) {
                    return Err(CLASH);
                }
                self.set(d, |g| g.low(a, k))
            }
            Call::Drop { a } => {
                self.filled(a)?;
                self.registers[a] = None;
                Ok(Answer::Ok(self.diagram.nodes.len()))
            }
            Call::Collect => {
                self.diagram.collect(&mut self.registers);
                Ok(Answer::Ok(self.diagram.nodes.len()))
            }
            Call::At { a, v } => Ok(Answer::Value(self.at(self.filled(a)?, v))),
            Call::Cmp { a, b } => Ok(compare(self.filled(a)?, self.filled(b)?)),
            Call::On { a } => self.on(a),
            Call::Lows { d, a, m } => self.lows(d, a, m),
        }
    }

    /// The gate's tensor, but for the entries that a blunder has wrong.
    fn gate(&self, gate: &Gate) -> Tensor {
        let right = gate::tensor(gate);
        let mut other = gate.clone();
        match (self.diagram.blunder, gate.name) {
            (Blunder::NegatedY, Name::Y) => right.scaled(minus(1)),
            (Blunder::InverseOfS, Name::S) => {
                other.name = Name::SD;
                gate::tensor(&other)
            }
            (Blunder::LastOfH, Name::H) => {
                let all = right.mask();
                Tensor::from_fn(all, |v| if v & all == all { H } else { right.at(v) })
            }
            (Blunder::ExchangedCx, Name::CX) => {
                other.qubits.reverse();
                gate::tensor(&other)
            }
            (Blunder::MiddleOfSw, Name::SW) => {
                let rows = gate.qubits.iter().fold(0, |m, &q| m | 1 << fresh(q));
                let exchanged = |v: u32| (v & rows).count_ones() == 1;
                Tensor::from_fn(right.mask(), |v| {
                    right.at(if exchanged(v) { v ^ rows } else { v })
                })
            }
            _ => right,
        }
    }

    fn filled(&self, a: usize) -> Result<Edge, Refusal> {
        self.registers[a].ok_or(EMPTY)
    }

    fn set(
        &mut self,
        d: usize,
        work: impl FnOnce(&mut Diagram) -> Edge,
    ) -> Result<Answer, Refusal> {
        let before = self.diagram.nodes.len();
        let e = work(&mut self.diagram);
        let count = self.diagram.nodes.len();
        if count > self.capacity {
            self.diagram.roll_back(before);
            return Err(FULL);
        }
        self.registers[d] = Some(e);
        Ok(Answer::Ok(count))
    }

    fn depends(&self, e: Edge, k: u32) -> bool {
        if e.node == 0 {
            return false;
        }
        let node = self.diagram.nodes[e.node - 1];
        node.index == k
            || node.index < k && (self.depends(node.low, k) || self.depends(node.high, k))
    }

    /// Not by the records' masks, so that a wrong one shows in the store alone.
    fn on(&self, a: usize) -> Result<Answer, Refusal> {
        if self.has(Blunder::EmptyMasked) && self.registers[a].is_none() {
            return Ok(Answer::Mask(0));
        }
        let e = self.filled(a)?;
        let first = u32::from(self.has(Blunder::TopUnmasked));
        let above = (self.diagram.top(e) + first..INDICES).filter(|&k| self.depends(e, k));
        Ok(Answer::Mask(above.fold(0, |mask, k| mask | 1 << k)))
    }

    fn lows(&mut self, d: usize, a: usize, m: u32) -> Result<Answer, Refusal> {
        let a = self.filled(a)?;
        if members(m).any(|k| self.clash(a, k, m)) {
            return Err(CLASH);
        }
        if self.has(Blunder::KeepsSingles) {
            return self.set(d, |g| members(m).fold(a, |e, k| g.low(e, k)));
        }
        self.set(d, |g| g.lows(a, m))
    }

    fn clash(&self, a: Edge, k: u32, m: u32) -> bool {
        let taken = match self.has(Blunder::ClashAbove) {
            true => k + 1,
            false => k - 1,
        };
        let stays = m >> taken & 1 == 0 || self.has(Blunder::ClashInChain);
        let used = self.depends(a, k) || !self.has(Blunder::ClashWhereUsed);
        self.depends(a, taken) && stays && used
    }

    fn at(&self, mut e: Edge, v: u32) -> u32 {
        while e.node != 0 {
            let k = self.diagram.top(e);
            let (low, high) = self.diagram.parts(e, k);
            e = if v >> k & 1 == 0 { low } else { high };
        }
        e.weight
    }

    fn apply(&mut self, gate: &Gate, d: usize) -> bool {
        let m = gate.qubits.iter().fold(0, |m, &q| m | 1 << middle(q));
        let mut lowered: Vec<u32> = gate.qubits.iter().map(|&q| fresh(q)).collect();
        lowered.sort_unstable();
        let gate = gate.clone();
        let mut calls = vec![Call::Gate { d: 2, gate }, Call::Cont { d, a: 2, b: d, m }];
        calls.extend(lowered.into_iter().map(|k| Call::Low { d, a: d, k }));
        calls.extend([Call::Drop { a: 2 }, Call::Collect]);
        calls.iter().all(|call| self.call(call).is_ok())
    }

    fn judge(&mut self, text: &[u8]) -> Result<Ruling, Fault> {
        let lists = read(text)?;
        let equals = lists.first.len() + 2;
        let full = |line| Fault { number: FULL, line };
        for (list, d, start) in [(&lists.first, 0, 1), (&lists.second, 1, equals)] {
            let unit = Call::Unit { d, n: lists.n };
            self.call(&unit).map_err(|_| full(start))?;
            for (gate, i) in list.iter().zip(start + 1..) {
                if !self.apply(gate, d) {
                    return Err(full(i));
                }
            }
        }
        match self.diagram.blunder {
            Blunder::StuckAtSame => return Ok(Ruling::Same),
            Blunder::StuckAtDiffer => return Ok(Ruling::Differ),
            _ => {}
        }
        Ok(match self.call(&Call::Cmp { a: 0, b: 1 }) {
            Ok(Answer::Same) => Ruling::Same,
            Ok(Answer::Factor(f)) => Ruling::Factor(f),
            _ => Ruling::Differ,
        })
    }
}

fn compare(a: Edge, b: Edge) -> Answer {
    if a == b {
        Answer::Same
    } else if a.node != b.node || a == ZERO || b == ZERO {
        Answer::Differ
    } else {
        Answer::Factor(times(a.weight, inverse(b.weight)))
    }
}

/// A node's record; fields 4 and 5 are left dirty.
fn write(store: &mut [u8], n: usize, node: &Node, mask: u32) {
    let record = &mut store[16 * (n - 1)..16 * n];
    let high = node.high.weight;
    let packed = node.index + 256 * (node.low.weight & 1) + 512 * (high >> 16);
    let fields = [
        (0, packed),
        (1, node.low.node as u32),
        (2, high & 0xFFFF),
        (3, node.high.node as u32),
        (6, mask & 0xFFFF),
        (7, mask >> 16),
    ];
    for (f, field) in fields {
        record[2 * f..2 * f + 2].copy_from_slice(&(field as u16).to_le_bytes());
    }
}

impl Engine for Model {
    fn session(&mut self, text: &[u8], store: &mut [u8], _: &mut [u64], out: &mut [u8]) -> Session {
        self.start(store.len());
        let least = 16 + usize::from(self.has(Blunder::StopsEarly));
        let (mut code, mut lines, mut bytes) = (0, 0, 0);
        for line in text::lines(text) {
            if out.len() - bytes < least {
                code = 9;
                break;
            }
            let called = self.read(line).and_then(|call| self.call(&call));
            let answer = called.unwrap_or_else(Answer::No).bytes();
            out[bytes..bytes + answer.len()].copy_from_slice(&answer);
            bytes += answer.len();
            lines += 1;
        }
        let count = self.diagram.nodes.len();
        // A wrong model may have more nodes than fit.
        let masked = self.diagram.nodes.iter().zip(&self.diagram.masks);
        for (n, (node, &mask)) in (1..=store.len() / 16).zip(masked) {
            write(store, n, node, mask);
        }
        let shown = |e: Edge| engine::Edge {
            weight: e.weight.into(),
            node: e.node as u64,
        };
        Session {
            code,
            lines,
            bytes: bytes as u64,
            count: count as u64,
            registers: self.registers.map(|r| r.map(shown)),
        }
    }

    fn verdict(&mut self, text: &[u8], store: &mut [u8], _: &mut [u64], out: &mut [u8]) -> Verdict {
        if out.len() < 32 {
            return Verdict { code: 9, bytes: 0 };
        }
        self.start(store.len());
        let answer = self.judge(text).unwrap_or_else(Ruling::No).bytes();
        out[..answer.len()].copy_from_slice(&answer);
        Verdict {
            code: 0,
            bytes: answer.len() as u64,
        }
    }
}
