//! Nodes, the unique table over them, and collection.

use super::count::Count;
use std::num::NonZeroU64;

/// A weight times a node's tensor; node 0 is the constant 1. It is one word that is never 0, so that an optional edge
/// is one word too and is returned in a register: the weight above 32 bits, a 1, the node.
#[derive(Clone, Copy, Debug, PartialEq, Eq)]
pub struct Edge(NonZeroU64);

const TAG: NonZeroU64 = NonZeroU64::new(1 << 16).expect("not 0");

impl Edge {
    pub const ZERO: Edge = Edge(TAG);

    pub fn new(weight: u32, node: u16) -> Self {
        Edge(TAG | (u64::from(weight) << 32 | u64::from(node)))
    }

    pub fn weight(self) -> u32 {
        (self.0.get() >> 32) as u32
    }

    pub fn node(self) -> u16 {
        self.0.get() as u16
    }
}

/// The index of a constant: above every index.
pub const CONSTANT: u32 = 24;

/// A node in one word, so that two nodes are compared and hashed as a number: from the top bit down the index, the low
/// weight (0 or 1), the high weight (17 bits), the low and the high node (16 bits each).
#[derive(Clone, Copy, PartialEq, Eq)]
pub struct Node(u64);

impl Node {
    pub fn new(index: u32, low: Edge, high: Edge) -> Self {
        Node(
            u64::from(index) << 50
                | u64::from(low.weight()) << 49
                | u64::from(high.weight()) << 32
                | u64::from(low.node()) << 16
                | u64::from(high.node()),
        )
    }

    pub fn index(self) -> u32 {
        (self.0 >> 50) as u32
    }

    pub fn low(self) -> Edge {
        Edge::new((self.0 >> 49 & 1) as u32, (self.0 >> 16) as u16)
    }

    pub fn high(self) -> Edge {
        Edge::new((self.0 >> 32 & 0x1ffff) as u32, self.0 as u16)
    }

    fn with_nodes(self, low: u16, high: u16) -> Self {
        Node(self.0 >> 32 << 32 | u64::from(low) << 16 | u64::from(high))
    }

    /// The upper bits of the product depend on all bits of the node.
    fn hash(self, shift: u32) -> u16 {
        (self.0.wrapping_mul(0x9e37_79b9_7f4a_7c15) >> shift) as u16
    }
}

const PLACES: usize = 65536;
const FEWEST_BITS: u32 = 6;
const MOST_BITS: u32 = 16;

/// Every array has a place for each number of 16 bits, so that no index is tested.
pub struct Store {
    nodes: Box<[Node; PLACES]>,
    /// the node after it in its chain
    next: Box<[u16; PLACES]>,
    /// the first node of each chain
    heads: Box<[u16; PLACES]>,
    /// in a collection: not 0 if reached, then the new number
    moved: Box<[u16; PLACES]>,
    count: usize,
    capacity: usize,
    /// 64 less the number of bits of a bucket
    shift: u32,
}

impl Store {
    pub fn new() -> Self {
        Store {
            nodes: Box::new([Node(u64::from(CONSTANT) << 50); PLACES]),
            next: Box::new([0; PLACES]),
            heads: Box::new([0; PLACES]),
            moved: Box::new([0; PLACES]),
            count: 0,
            capacity: 0,
            shift: 64 - FEWEST_BITS,
        }
    }

    /// No nodes, and room for so many.
    pub fn start(&mut self, capacity: usize) {
        self.count = 0;
        self.capacity = capacity.min(65535);
        self.empty_table(FEWEST_BITS);
    }

    pub fn count(&self) -> usize {
        self.count
    }

    pub fn node(&self, n: u16) -> Node {
        self.nodes[usize::from(n)]
    }

    /// The number of the node, which is found or becomes one more. None where there is no room.
    pub fn make<C: Count>(&mut self, node: Node, tally: &mut C) -> Option<u16> {
        tally.make();
        let bucket = usize::from(node.hash(self.shift));
        let mut n = self.heads[bucket];
        while n != 0 {
            tally.probe();
            if self.node(n) == node {
                return Some(n);
            }
            n = self.next[usize::from(n)];
        }
        if self.count == self.capacity {
            return None;
        }
        self.count += 1;
        let new = self.count as u16;
        self.nodes[usize::from(new)] = node;
        self.next[usize::from(new)] = self.heads[bucket];
        self.heads[bucket] = new;
        if self.count > 1 << (62 - self.shift) && self.shift > 64 - MOST_BITS {
            self.grow(tally);
        }
        Some(new)
    }

    #[cold]
    fn grow<C: Count>(&mut self, tally: &mut C) {
        tally.grow();
        self.empty_table(64 - self.shift + 1);
        for n in 1..=self.count {
            self.link(n as u16);
        }
    }

    fn empty_table(&mut self, bits: u32) {
        self.shift = 64 - bits;
        self.heads[..1 << bits].fill(0);
    }

    fn link(&mut self, n: u16) {
        let bucket = usize::from(self.node(n).hash(self.shift));
        self.next[usize::from(n)] = self.heads[bucket];
        self.heads[bucket] = n;
    }

    /// Keeps the first `fixed` nodes and what the roots reach, in their order, and gives the roots their new numbers.
    pub fn collect(&mut self, roots: &mut [Edge], fixed: usize) {
        self.mark(roots, fixed);
        self.compact(fixed);
        for r in roots {
            *r = Edge::new(r.weight(), self.moved[usize::from(r.node())]);
        }
    }

    /// A node's children have smaller numbers, so one pass downwards reaches everything.
    fn mark(&mut self, roots: &[Edge], fixed: usize) {
        self.moved[..=self.count].fill(0);
        for r in roots {
            self.moved[usize::from(r.node())] = 1;
        }
        for n in (fixed + 1..=self.count).rev() {
            if self.moved[n & 0xffff] != 0 {
                let node = self.nodes[n & 0xffff];
                self.moved[usize::from(node.low().node())] = 1;
                self.moved[usize::from(node.high().node())] = 1;
            }
        }
    }

    /// Moves the reached nodes down and links all into a table whose size fits the nodes before the collection, since
    /// the next gate makes about as many again.
    fn compact(&mut self, fixed: usize) {
        let bits = usize::BITS - self.count.leading_zeros() + 2;
        self.empty_table(bits.clamp(FEWEST_BITS, MOST_BITS));
        self.moved[0] = 0;
        for n in 1..=fixed {
            self.moved[n & 0xffff] = n as u16;
            self.link(n as u16);
        }
        let mut kept = fixed as u16;
        for n in fixed + 1..=self.count {
            if self.moved[n & 0xffff] != 0 {
                kept += 1;
                let node = self.nodes[n & 0xffff];
                let low = self.moved[usize::from(node.low().node())];
                let high = self.moved[usize::from(node.high().node())];
                self.nodes[usize::from(kept)] = node.with_nodes(low, high);
                self.moved[n & 0xffff] = kept;
                self.link(kept);
            }
        }
        self.count = usize::from(kept);
    }
}
