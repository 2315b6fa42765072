//! The tally's "set of normal tensors, empty at first", with the order in which they were put in:
//! "Nodes are numbered from 1 in the order put in".

use crate::tensor::Tensor;
use std::collections::HashSet;

#[derive(Clone, Debug, Default)]
pub struct Set {
    order: Vec<Tensor>,
    present: HashSet<Tensor>,
}

impl Set {
    /// "The tally's node count is the size of its set."
    pub fn count(&self) -> usize {
        self.order.len()
    }

    pub fn in_order(&self) -> &[Tensor] {
        &self.order
    }

    pub fn has(&self, t: &Tensor) -> bool {
        self.present.contains(t)
    }

    /// "is put in the set, unless present"
    pub fn put_in(&mut self, t: Tensor) {
        assert!(t.is_normal());
        if self.present.insert(t.clone()) {
            self.order.push(t);
        }
    }

    /// The set as it was when it had `count` members.
    pub fn back_to(&mut self, count: usize) {
        for t in self.order.drain(count..) {
            self.present.remove(&t);
        }
    }

    /// Keeps exactly these, all of which are present, in their order.
    pub fn keep(&mut self, kept: HashSet<Tensor>) {
        assert!(kept.is_subset(&self.present));
        self.order.retain(|t| kept.contains(t));
        self.present = kept;
    }
}
