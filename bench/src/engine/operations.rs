//! Sum, contraction and lowering (document 01, "The tally").

use super::cache::Key;
use super::count::Count;
use super::store::{Edge, Node, CONSTANT};
use super::Engine;
use crate::field;

/// An edge to the result; None where the nodes would be more than the store holds.
pub type Outcome = Option<Edge>;

fn times(w: u32, e: Edge) -> Edge {
    Edge::new(field::mul(w, e.weight()), e.node())
}

/// Both cofactors by the index k of the node n, which was read already.
fn cofactors(n: u16, node: Node, k: u32) -> (Edge, Edge) {
    if node.index() == k {
        (node.low(), node.high())
    } else {
        let e = Edge::new(1, n);
        (e, e)
    }
}

impl<C: Count> Engine<C> {
    fn inverse(&mut self, w: u32) -> u32 {
        self.count.inverse(w);
        self.inverses.of(w)
    }

    /// The tensor that is l at 0 and h at 1 of the index k.
    pub(super) fn join(&mut self, k: u32, l: Edge, h: Edge) -> Outcome {
        if l == h {
            return Some(l);
        }
        let (weight, low, high) = if l.weight() == 0 {
            (h.weight(), 0, 1)
        } else {
            (
                l.weight(),
                1,
                field::mul(self.inverse(l.weight()), h.weight()),
            )
        };
        let low = Edge::new(low, l.node());
        let high = Edge::new(high, h.node());
        let node = self.store.make(Node::new(k, low, high), &mut self.count)?;
        Some(Edge::new(weight, node))
    }

    // Inlined, as are `contract` and `lower`: the recursion then has one call for each step, and the ends cost none.
    #[inline(always)]
    pub(super) fn sum(&mut self, a: Edge, b: Edge) -> Outcome {
        if a.weight() == 0 {
            return Some(b);
        }
        if b.weight() == 0 {
            return Some(a);
        }
        if a.node() == b.node() {
            let weight = field::add(a.weight(), b.weight());
            let node = if weight == 0 { 0 } else { a.node() };
            return Some(Edge::new(weight, node));
        }
        // both orders, and all multiples, share an entry
        let (a, b) = if a.node() < b.node() { (a, b) } else { (b, a) };
        let ratio = field::mul(self.inverse(a.weight()), b.weight());
        let e = self.sum_nodes(a.node(), b.node(), ratio)?;
        Some(times(a.weight(), e))
    }

    /// The node m plus a multiple of the node n.
    fn sum_nodes(&mut self, m: u16, n: u16, ratio: u32) -> Outcome {
        let key = Key::sum(m, n, ratio);
        let place = self.cache.place(key);
        let known = self.cache.get(place, key);
        self.count.lookup(known.is_some());
        if known.is_some() {
            return known;
        }
        let (x, y) = (self.store.node(m), self.store.node(n));
        let k = x.index().min(y.index());
        let (a0, a1) = cofactors(m, x, k);
        let (b0, b1) = cofactors(n, y, k);
        let l = self.sum(a0, times(ratio, b0))?;
        let h = self.sum(a1, times(ratio, b1))?;
        let e = self.join(k, l, h)?;
        self.cache.put(place, key, e);
        Some(e)
    }

    #[inline(always)]
    pub(super) fn contract(&mut self, a: Edge, b: Edge, set: u32) -> Outcome {
        if a.weight() == 0 || b.weight() == 0 {
            return Some(Edge::ZERO);
        }
        let (x, y) = (self.store.node(a.node()), self.store.node(b.node()));
        let k = x.index().min(y.index());
        let mut weight = field::mul(a.weight(), b.weight());
        // members of the set on which neither depends double the result
        let below = set & ((1 << k) - 1);
        if below != 0 {
            weight = field::mul(weight, field::power_of_two(below.count_ones()));
        }
        let rest = set & !below;
        if rest == 0 && (a.node() == 0 || b.node() == 0) {
            let node = a.node() | b.node();
            return Some(Edge::new(weight, node));
        }
        let e = self.contract_nodes(a.node(), b.node(), k, rest)?;
        Some(times(weight, e))
    }

    /// The nodes m and n, not both constant, with the lower top k.
    fn contract_nodes(&mut self, m: u16, n: u16, k: u32, set: u32) -> Outcome {
        let key = Key::contract(m, n, set);
        let place = self.cache.place(key);
        let known = self.cache.get(place, key);
        self.count.lookup(known.is_some());
        if known.is_some() {
            return known;
        }
        let (a0, a1) = cofactors(m, self.store.node(m), k);
        let (b0, b1) = cofactors(n, self.store.node(n), k);
        let rest = set & !(1 << k);
        let l = self.contract(a0, b0, rest)?;
        let h = self.contract(a1, b1, rest)?;
        let e = if rest != set {
            self.sum(l, h)?
        } else {
            self.join(k, l, h)?
        };
        self.cache.put(place, key, e);
        Some(e)
    }

    /// The index k is renamed k - 1, on which `a` does not depend.
    #[inline(always)]
    pub(super) fn lower(&mut self, a: Edge, k: u32) -> Outcome {
        let node = self.store.node(a.node());
        let top = node.index();
        if top > k {
            return Some(a);
        }
        let e = if top == k {
            // one search in the unique table: remembering it would cost as much
            self.join(k - 1, node.low(), node.high())?
        } else {
            self.lower_node(a.node(), node, k)?
        };
        Some(times(a.weight(), e))
    }

    /// The node n, whose top is below k.
    fn lower_node(&mut self, n: u16, node: Node, k: u32) -> Outcome {
        debug_assert!(node.index() < CONSTANT);
        let key = Key::lower(n, k);
        let place = self.cache.place(key);
        let known = self.cache.get(place, key);
        self.count.lookup(known.is_some());
        if known.is_some() {
            return known;
        }
        let l = self.lower(node.low(), k)?;
        let h = self.lower(node.high(), k)?;
        let e = self.join(node.index(), l, h)?;
        self.cache.put(place, key, e);
        Some(e)
    }
}
