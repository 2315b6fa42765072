//! Decision diagrams with remembered results, and the blunders that can be made with them.

use std::collections::HashMap;
use tally::field::{inverse, plus, power, times};
use tally::tensor::{Tensor, INDICES};

#[derive(Clone, Copy, Debug, PartialEq, Eq)]
pub enum Blunder {
    Nothing,
    /// A remembered result is used after a collection.
    StaleAfterCollection,
    /// A remembered result of a refused call is used.
    StaleAfterRefusal,
    /// What an earlier session remembered is used.
    StaleAfterSession,
    /// "Remembering a contraction without S."
    ForgetsSet,
    /// "Halting a contraction at constants without the power of 2."
    NoPowerOfTwo,
    /// "Making a node whose low and high are equal."
    EqualEdges,
    /// "Keeping nodes of a refused call."
    KeepsRefused,
    /// "Dividing by the low weight when it is 0."
    DividesByZero,
    /// Nodes are put in high before low.
    HighFirst,
    /// "claiming full early"
    FullEarly,
    /// "Stopping with 9 too soon"
    StopsEarly,
    /// "A verdict stuck at `same`"
    StuckAtSame,
    /// ".. or `differ`"
    StuckAtDiffer,
    /// A record's mask lacks the node's own index.
    OwnIndexUnmasked,
    /// A record's mask lacks what the high edge leads to.
    HighUnmasked,
    /// A collection leaves masks at their places, though `on` is answered right.
    MasksUnmoved,
    /// A node gets the mask that a refused call left at its place.
    MasksOfRefused,
    /// `on` is answered without the top.
    TopUnmasked,
    /// `on` answers 0 for an empty register.
    EmptyMasked,
    /// `low` tests k in place of k-1.
    ClashAtIndex,
    /// `lows` goes from above, one after the other, so that k+1 follows k down again.
    FallsTwice,
    /// `lows` goes from below, one after the other, and keeps the nodes on the way.
    KeepsSingles,
    /// `lows` tests k+1 in place of k-1.
    ClashAbove,
    /// `lows` tests k-1 only where the tensor depends on k.
    ClashWhereUsed,
    /// `lows` tests k-1 also where it is in the set.
    ClashInChain,
    /// `lows` accepts index 0, and leaves it where it is.
    LowersZero,
    /// Remembering `lows` without its set.
    ForgetsLowered,
    /// Remembering `low` with its index as `lows` with the set of that number.
    IndexAsSet,
    /// `lows` accepts a number above 16777215, and leaves the bits above out.
    LowersBeyond,
    /// What is remembered of `lows` is used after a collection.
    LoweredAfterCollection,
    /// What is remembered of `lows` in a refused call is used.
    LoweredAfterRefusal,
    /// What is remembered of `lows` in an earlier session is used.
    LoweredAfterSession,
    /// Y with the other sign.
    NegatedY,
    /// SD for S.
    InverseOfS,
    /// H whose last entry is h.
    LastOfH,
    /// CX whose control is the target.
    ExchangedCx,
    /// SW with its middle rows exchanged.
    MiddleOfSw,
}

#[derive(Clone, Copy, Debug, PartialEq, Eq, Hash)]
pub struct Edge {
    pub weight: u32,
    pub node: usize,
}

#[derive(Clone, Copy, Debug, PartialEq, Eq, Hash)]
pub struct Node {
    pub index: u32,
    pub low: Edge,
    pub high: Edge,
}

#[derive(PartialEq, Eq, Hash)]
enum Key {
    Sum(Edge, Edge),
    Cont(usize, usize, u32),
    Low(usize, u32),
    Lows(usize, u32),
}

pub const ZERO: Edge = Edge { weight: 0, node: 0 };

pub struct Diagram {
    pub blunder: Blunder,
    pub nodes: Vec<Node>,
    /// The masks in the nodes' records.
    pub masks: Vec<u32>,
    places: HashMap<Node, usize>,
    remembered: HashMap<Key, Edge>,
}

impl Diagram {
    pub fn new(blunder: Blunder) -> Diagram {
        Diagram {
            blunder,
            nodes: Vec::new(),
            masks: Vec::new(),
            places: HashMap::new(),
            remembered: HashMap::new(),
        }
    }

    pub fn clear(&mut self) {
        self.nodes.clear();
        self.masks.clear();
        self.places.clear();
        self.forget(Blunder::StaleAfterSession, Blunder::LoweredAfterSession);
    }

    /// Forgets every remembered result, unless not to do so is the blunder, or not of `lows`.
    fn forget(&mut self, unless: Blunder, not_of_lows: Blunder) {
        if self.blunder == not_of_lows {
            self.remembered
                .retain(|key, _| matches!(key, Key::Lows(..)));
        } else if self.blunder != unless {
            self.remembered.clear();
        }
    }

    pub fn top(&self, e: Edge) -> u32 {
        match e.node {
            0 => INDICES,
            n => self.nodes[n - 1].index,
        }
    }

    pub fn parts(&self, e: Edge, k: u32) -> (Edge, Edge) {
        if self.top(e) != k {
            return (e, e);
        }
        let node = self.nodes[e.node - 1];
        (scaled(node.low, e.weight), scaled(node.high, e.weight))
    }

    fn join(&mut self, k: u32, low: Edge, high: Edge) -> Edge {
        if low == high && (self.blunder != Blunder::EqualEdges || low == ZERO) {
            return low;
        }
        let w = if low.weight == 0 && self.blunder != Blunder::DividesByZero {
            high.weight
        } else {
            low.weight
        };
        let by = if w == 0 { 0 } else { inverse(w) };
        let node = Node {
            index: k,
            low: scaled(low, by),
            high: scaled(high, by),
        };
        let next = self.nodes.len() + 1;
        let place = *self.places.entry(node).or_insert(next);
        if place == next {
            self.push(node);
        }
        scaled(
            Edge {
                weight: 1,
                node: place,
            },
            w,
        )
    }

    /// A node at the next place, where a blunder may have left a mask.
    fn push(&mut self, node: Node) {
        let mask = self.mask(&node);
        self.nodes.push(node);
        if self.masks.len() < self.nodes.len() {
            self.masks.push(mask);
        }
    }

    fn mask(&self, node: &Node) -> u32 {
        let of = |e: Edge| e.node.checked_sub(1).map_or(0, |i| self.masks[i]);
        let (own, low, high) = (1 << node.index, of(node.low), of(node.high));
        match self.blunder {
            Blunder::OwnIndexUnmasked => low | high,
            Blunder::HighUnmasked => own | low,
            _ => own | low | high,
        }
    }

    /// Both halves of a recursion, low first.
    fn both(
        &mut self,
        mut low: impl FnMut(&mut Diagram) -> Edge,
        mut high: impl FnMut(&mut Diagram) -> Edge,
    ) -> (Edge, Edge) {
        if self.blunder == Blunder::HighFirst {
            let h = high(self);
            return (low(self), h);
        }
        let l = low(self);
        (l, high(self))
    }

    /// A remembered result. A stale one must still be a node above k, so that diagrams stay
    /// diagrams.
    fn recall(&self, key: &Key, k: u32) -> Option<Edge> {
        let found = *self.remembered.get(key)?;
        (found.node <= self.nodes.len() && self.top(found) >= k).then_some(found)
    }

    pub fn sum(&mut self, a: Edge, b: Edge) -> Edge {
        if a == ZERO {
            return b;
        }
        if b == ZERO {
            return a;
        }
        if a.node == b.node {
            return scaled(
                Edge {
                    weight: 1,
                    node: a.node,
                },
                plus(a.weight, b.weight),
            );
        }
        let k = self.top(a).min(self.top(b));
        if let Some(found) = self.recall(&Key::Sum(a, b), k) {
            return found;
        }
        let (a0, a1) = self.parts(a, k);
        let (b0, b1) = self.parts(b, k);
        let (low, high) = self.both(|d| d.sum(a0, b0), |d| d.sum(a1, b1));
        let answer = self.join(k, low, high);
        self.remembered.insert(Key::Sum(a, b), answer);
        answer
    }

    pub fn cont(&mut self, a: Edge, b: Edge, s: u32) -> Edge {
        let weight = times(a.weight, b.weight);
        if weight == 0 {
            return ZERO;
        }
        if a.node == 0 && b.node == 0 {
            let members = if self.blunder == Blunder::NoPowerOfTwo {
                0
            } else {
                s.count_ones()
            };
            return Edge {
                weight: times(weight, power(2, members)),
                node: 0,
            };
        }
        let (a, b) = (Edge { weight: 1, ..a }, Edge { weight: 1, ..b });
        let k = self.top(a).min(self.top(b));
        let kept = if self.blunder == Blunder::ForgetsSet {
            0
        } else {
            s
        };
        let key = Key::Cont(a.node, b.node, kept);
        if let Some(found) = self.recall(&key, k) {
            return scaled(found, weight);
        }
        let rest = s & !(1 << k);
        let (a0, a1) = self.parts(a, k);
        let (b0, b1) = self.parts(b, k);
        let (low, high) = self.both(|d| d.cont(a0, b0, rest), |d| d.cont(a1, b1, rest));
        let answer = if s == rest {
            self.join(k, low, high)
        } else {
            self.sum(low, high)
        };
        self.remembered.insert(key, answer);
        scaled(answer, weight)
    }

    pub fn low(&mut self, e: Edge, k: u32) -> Edge {
        let top = self.top(e);
        if top > k {
            return e;
        }
        let key = match self.blunder {
            Blunder::IndexAsSet => Key::Lows(e.node, k),
            _ => Key::Low(e.node, k),
        };
        if let Some(found) = self.recall(&key, top.min(k - 1)) {
            return scaled(found, e.weight);
        }
        let (e0, e1) = self.parts(Edge { weight: 1, ..e }, top);
        let answer = if top == k {
            self.join(k - 1, e0, e1)
        } else {
            let (l, h) = self.both(|d| d.low(e0, k), |d| d.low(e1, k));
            self.join(top, l, h)
        };
        self.remembered.insert(key, answer);
        scaled(answer, e.weight)
    }

    /// Every index of m goes down together.
    pub fn lows(&mut self, e: Edge, m: u32) -> Edge {
        if e.node == 0 {
            return e;
        }
        let top = self.top(e);
        let place = self.place(top, m);
        let kept = if self.blunder == Blunder::ForgetsLowered {
            0
        } else {
            m
        };
        let key = Key::Lows(e.node, kept);
        if let Some(found) = self.recall(&key, place) {
            return scaled(found, e.weight);
        }
        let (mut e0, mut e1) = self.parts(Edge { weight: 1, ..e }, top);
        // Two indices come to one place by a blunder alone: they have one value there.
        for k in (top + 1..INDICES).take_while(|&k| self.place(k, m) == place) {
            (e0, e1) = (self.parts(e0, k).0, self.parts(e1, k).1);
        }
        let (l, h) = self.both(|d| d.lows(e0, m), |d| d.lows(e1, m));
        let answer = self.join(place, l, h);
        self.remembered.insert(key, answer);
        scaled(answer, e.weight)
    }

    /// Where index k goes when those of m go down.
    fn place(&self, k: u32, m: u32) -> u32 {
        // How many of k, k-1 and so on are in m.
        let run = (m << (31 - k)).leading_ones();
        match self.blunder {
            Blunder::FallsTwice => k - run,
            _ => k - run.min(1),
        }
    }

    pub fn build(&mut self, t: &Tensor) -> Edge {
        let Some(top) = t.top() else {
            return Edge {
                weight: t.at(0),
                node: 0,
            };
        };
        let (t0, t1) = t.fixed(top);
        let (l, h) = self.both(|d| d.build(&t0), |d| d.build(&t1));
        self.join(top, l, h)
    }

    /// The nodes as they were when there were `count`.
    pub fn roll_back(&mut self, count: usize) {
        if self.blunder == Blunder::KeepsRefused {
            return;
        }
        self.nodes.truncate(count);
        if self.blunder != Blunder::MasksOfRefused {
            self.masks.truncate(count);
        }
        self.places.retain(|_, n| *n <= count);
        self.forget(Blunder::StaleAfterRefusal, Blunder::LoweredAfterRefusal);
    }

    /// Keeps what the registers reach, closes the gaps and preserves order.
    pub fn collect(&mut self, registers: &mut [Option<Edge>]) {
        let mut reached = vec![false; self.nodes.len() + 1];
        for e in registers.iter().flatten() {
            reached[e.node] = true;
        }
        for n in (1..=self.nodes.len())
            .rev()
            .filter(|&n| reached[n])
            .collect::<Vec<_>>()
        {
            self.reach(n, &mut reached);
        }
        let moved = self.close_gaps(&reached);
        for e in registers.iter_mut().flatten() {
            e.node = moved[e.node];
        }
        self.forget(
            Blunder::StaleAfterCollection,
            Blunder::LoweredAfterCollection,
        );
    }

    /// The place that each node has then.
    fn close_gaps(&mut self, reached: &[bool]) -> Vec<usize> {
        let mut moved = vec![0; reached.len()];
        let old = std::mem::take(&mut self.nodes);
        self.places.clear();
        for (n, node) in (1..).zip(old) {
            if reached[n] {
                let to = |e: Edge| Edge {
                    node: moved[e.node],
                    ..e
                };
                let node = Node {
                    low: to(node.low),
                    high: to(node.high),
                    ..node
                };
                self.nodes.push(node);
                moved[n] = self.nodes.len();
                self.places.insert(node, moved[n]);
                if self.blunder != Blunder::MasksUnmoved {
                    self.masks[moved[n] - 1] = self.masks[n - 1];
                }
            }
        }
        self.masks.truncate(self.nodes.len());
        moved
    }

    fn reach(&self, n: usize, reached: &mut [bool]) {
        for e in [self.nodes[n - 1].low, self.nodes[n - 1].high] {
            if e.node != 0 && !reached[e.node] {
                reached[e.node] = true;
                self.reach(e.node, reached);
            }
        }
    }
}

pub fn scaled(e: Edge, w: u32) -> Edge {
    match times(e.weight, w) {
        0 => ZERO,
        weight => Edge {
            weight,
            node: e.node,
        },
    }
}
