//! "A tensor gives a weight for each assignment of 0 or 1 to the indices 0 to 23."
//!
//! A table over all 24 indices would have 16,777,216 values. So a tensor is the table over exactly
//! the indices on which it depends. That is one table for each tensor: equal tables are tensors
//! that agree at every assignment.

use crate::field::{inverse, plus, times, Weight};
use std::hash::{Hash, Hasher};
use std::rc::Rc;

pub const INDICES: u32 = 24;

/// The values stand in the document's order of reading: "index 0 varying slowest".
#[derive(Clone, Debug, PartialEq, Eq)]
pub struct Tensor {
    support: u32,
    values: Rc<[Weight]>,
}

impl Tensor {
    pub fn constant(w: Weight) -> Tensor {
        Tensor {
            support: 0,
            values: Rc::new([w]),
        }
    }

    /// The tensor with these values; it depends on no index outside `indices`.
    pub fn from_fn(indices: u32, value: impl Fn(u32) -> Weight) -> Tensor {
        let size = 1u32 << indices.count_ones();
        let values = (0..size).map(|p| value(assignment(indices, p))).collect();
        reduced(indices, values)
    }

    /// The indices of the table.
    pub fn support(&self) -> u32 {
        self.support
    }

    /// Whether two assignments that differ at k alone have different values.
    pub fn depends(&self, k: u32) -> bool {
        let stride = 1 << (self.support >> (k + 1)).count_ones();
        let differs = |p: usize| self.values[p] != self.values[p ^ stride];
        self.support >> k & 1 == 1 && (0..self.values.len()).any(differs)
    }

    /// "Bit k is set exactly when the tensor depends on index k."
    pub fn mask(&self) -> u32 {
        let depended = (0..INDICES).filter(|&k| self.depends(k));
        depended.fold(0, |mask, k| mask | 1 << k)
    }

    pub fn is_constant(&self) -> bool {
        self.support == 0
    }

    pub fn is_zero(&self) -> bool {
        self.is_constant() && self.values[0] == 0
    }

    /// "A tensor's top is the lowest index on which it depends; a constant has none."
    pub fn top(&self) -> Option<u32> {
        if self.is_constant() {
            None
        } else {
            Some(self.support.trailing_zeros())
        }
    }

    /// "T0 and T1 are T with its index k fixed to 0 and to 1." Here k is the top or below it.
    pub fn fixed(&self, k: u32) -> (Tensor, Tensor) {
        if self.top() != Some(k) {
            assert!(self.top().is_none_or(|top| k < top));
            return (self.clone(), self.clone());
        }
        let rest = self.support & !(1 << k);
        let (low, high) = self.values.split_at(self.values.len() / 2);
        (reduced(rest, low.to_vec()), reduced(rest, high.to_vec()))
    }

    /// "An assignment is written as a number whose bit k is the value of index k."
    pub fn at(&self, v: u32) -> Weight {
        let mut place = 0;
        for k in members(self.support) {
            place = 2 * place + (v >> k & 1);
        }
        self.values[place as usize]
    }

    /// "The tensor that is L at k=0 and H at k=1", k being below both tops.
    pub fn split(k: u32, low: &Tensor, high: &Tensor) -> Tensor {
        let rest = low.support | high.support;
        assert!(k < rest.trailing_zeros().min(INDICES));
        if low == high {
            return low.clone();
        }
        let mut values = spread(&low.values, low.support, rest);
        values.extend(spread(&high.values, high.support, rest));
        Tensor {
            support: rest | 1 << k,
            values: values.into(),
        }
    }

    /// At each assignment v the value where each index k of m has what v gives k-1, and every other
    /// index what v gives it. Bit 0 of m is not set.
    pub fn lowered(&self, m: u32) -> Tensor {
        let looked_at = |v: u32| v << 1 & m | v & !m;
        let used = (self.support & m) >> 1 | self.support & !m;
        Tensor::from_fn(used, |v| self.at(looked_at(v)))
    }

    pub fn scaled(&self, w: Weight) -> Tensor {
        if w == 0 {
            return Tensor::constant(0);
        }
        Tensor {
            support: self.support,
            values: self.values.iter().map(|&v| times(v, w)).collect(),
        }
    }

    /// The sum at each assignment.
    pub fn plus(&self, other: &Tensor) -> Tensor {
        let all = self.support | other.support;
        let mut values = spread(&self.values, self.support, all);
        for (v, w) in values
            .iter_mut()
            .zip(spread(&other.values, other.support, all))
        {
            *v = plus(*v, w);
        }
        reduced(all, values)
    }

    /// The first value that is not 0, "reading assignments with index 0 varying slowest".
    fn first(&self) -> Option<Weight> {
        self.values.iter().copied().find(|&v| v != 0)
    }

    /// "A tensor is normal if it is not constant and its first nonzero value is 1."
    pub fn is_normal(&self) -> bool {
        !self.is_constant() && self.first() == Some(1)
    }

    /// The multiple whose first nonzero value is 1; zero has none.
    pub fn normal(&self) -> Option<Tensor> {
        match self.first()? {
            1 => Some(self.clone()),
            w => Some(self.scaled(inverse(w))),
        }
    }

    /// The f with `self` equal to f times `other`, for nonzero tensors.
    pub fn factor_of(&self, other: &Tensor) -> Option<Weight> {
        if self.support != other.support {
            return None;
        }
        let f = times(self.first()?, inverse(other.first()?));
        let all = self.values.iter().zip(other.values.iter());
        all.into_iter()
            .all(|(&a, &b)| a == times(f, b))
            .then_some(f)
    }
}

/// Four sums side by side: the standard hash of every value would be a third of a run's time.
impl Hash for Tensor {
    fn hash<S: Hasher>(&self, state: &mut S) {
        let mut sums = [u64::from(self.support); 4];
        for four in self.values.chunks(4) {
            for (sum, &v) in sums.iter_mut().zip(four) {
                *sum = (*sum ^ u64::from(v)).wrapping_mul(0x9E37_79B9_7F4A_7C15);
            }
        }
        sums.hash(state);
    }
}

/// The members of a set of indices, rising.
pub fn members(set: u32) -> impl Iterator<Item = u32> {
    (0..INDICES).filter(move |k| set >> k & 1 == 1)
}

/// The assignment at place p of a table over `indices`.
fn assignment(indices: u32, p: u32) -> u32 {
    let last = indices.count_ones();
    let bits = members(indices).zip(1..);
    bits.fold(0, |v, (k, j)| v | (p >> (last - j) & 1) << k)
}

/// The table over `all` of the tensor whose table over `support` has these values.
fn spread(values: &[Weight], support: u32, all: u32) -> Vec<Weight> {
    if support == all {
        return values.to_vec();
    }
    let k = all.trailing_zeros();
    let rest = all & !(1 << k);
    if support >> k & 1 == 1 {
        let (low, high) = values.split_at(values.len() / 2);
        let below = support & !(1 << k);
        let mut both = spread(low, below, rest);
        both.extend(spread(high, below, rest));
        both
    } else {
        let mut both = spread(values, support, rest);
        both.extend_from_within(..);
        both
    }
}

/// The tensor with this table: indices on which it does not depend are left out.
fn reduced(indices: u32, mut values: Vec<Weight>) -> Tensor {
    let first = values[0];
    if values.iter().all(|&v| v == first) {
        return Tensor::constant(first);
    }
    let mut support = indices;
    let mut stride = values.len();
    for k in members(indices) {
        stride /= 2;
        let same = |part: &[Weight]| part[..stride] == part[stride..];
        if values.chunks(2 * stride).all(same) {
            let halves = values.chunks(2 * stride).flat_map(|part| &part[..stride]);
            values = halves.copied().collect();
            support &= !(1 << k);
        }
    }
    Tensor {
        support,
        values: values.into(),
    }
}
