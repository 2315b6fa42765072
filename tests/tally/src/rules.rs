//! The tally's rules: join, sum, cont, low, build, collect and lows.
//!
//! "Recursions do low (T0) before high (T1)."

use crate::field::{power, times};
use crate::set::Set;
use crate::tensor::{members, Tensor};
use std::collections::HashSet;

/// "join(k, L, H): the tensor that is L at k=0 and H at k=1. If L and H differ, the normal multiple
/// of it is put in the set, unless present."
pub fn join(set: &mut Set, k: u32, low: &Tensor, high: &Tensor) -> Tensor {
    let t = Tensor::split(k, low, high);
    if low != high {
        set.put_in(t.normal().expect("not constant"));
    }
    t
}

/// "sum(A, B): if A is zero, B. If B is zero, A. If one is a multiple of the other, their sum,
/// nothing put in. Else k is the lower top, and join(k, sum(A0,B0), sum(A1,B1))."
pub fn sum(set: &mut Set, a: &Tensor, b: &Tensor) -> Tensor {
    if a.is_zero() {
        return b.clone();
    }
    if b.is_zero() {
        return a.clone();
    }
    if a.factor_of(b).is_some() {
        return a.plus(b);
    }
    let k = lower_top(a, b).expect("two constants are multiples");
    let (a0, a1) = a.fixed(k);
    let (b0, b1) = b.fixed(k);
    let low = sum(set, &a0, &b0);
    let high = sum(set, &a1, &b1);
    join(set, k, &low, &high)
}

/// "cont(A, B, S), S a set of indices: zero if either is zero. If both are constant, their product
/// times 2 to the count of members in S. Else k is the lower top, S' is S without k, L =
/// cont(A0,B0,S'), H = cont(A1,B1,S'); the answer is sum(L,H) if k is in S, else join(k,L,H)."
pub fn cont(set: &mut Set, a: &Tensor, b: &Tensor, s: u32) -> Tensor {
    if a.is_zero() || b.is_zero() {
        return Tensor::constant(0);
    }
    let Some(k) = lower_top(a, b) else {
        let product = times(a.at(0), b.at(0));
        return Tensor::constant(times(product, power(2, s.count_ones())));
    };
    let rest = s & !(1 << k);
    let (a0, a1) = a.fixed(k);
    let (b0, b1) = b.fixed(k);
    let low = cont(set, &a0, &b0, rest);
    let high = cont(set, &a1, &b1, rest);
    if s == rest {
        join(set, k, &low, &high)
    } else {
        sum(set, &low, &high)
    }
}

/// "low(A, k): index k is renamed k-1. If A's top is above k, or A is constant, A itself. If the
/// top is k, join(k-1, A0, A1). Else join(top, low(A0,k), low(A1,k))."
pub fn low(set: &mut Set, a: &Tensor, k: u32) -> Tensor {
    let Some(top) = a.top().filter(|&top| top <= k) else {
        return a.clone();
    };
    let (a0, a1) = a.fixed(top);
    if top == k {
        return join(set, k - 1, &a0, &a1);
    }
    let l = low(set, &a0, k);
    let h = low(set, &a1, k);
    join(set, top, &l, &h)
}

/// "build(T): a constant is itself; else join(top, build(T0), build(T1))."
pub fn build(set: &mut Set, t: &Tensor) -> Tensor {
    let Some(top) = t.top() else {
        return t.clone();
    };
    let (t0, t1) = t.fixed(top);
    let l = build(set, &t0);
    let h = build(set, &t1);
    join(set, top, &l, &h)
}

/// "collect: the set keeps exactly the normal multiples of the nonconstant tensors got from filled
/// registers by fixing indices 0 to j-1, for j from 0 to 23."
pub fn collect(set: &mut Set, registers: &[Option<Tensor>]) {
    let mut kept = HashSet::new();
    for t in registers.iter().flatten() {
        note(&mut kept, t);
    }
    set.keep(kept);
}

/// Fixing indices below the top changes nothing, so what is got from T is T and what is got from T0
/// and T1. Multiples give multiples.
fn note(kept: &mut HashSet<Tensor>, t: &Tensor) {
    let Some(top) = t.top() else {
        return;
    };
    let normal = t.normal().expect("not constant");
    let (t0, t1) = normal.fixed(top);
    if kept.insert(normal) {
        note(kept, &t0);
        note(kept, &t1);
    }
}

/// "An index k in m is free to go where a does not depend on k-1, or where k-1 is in m too."
pub fn clash(a: &Tensor, m: u32) -> bool {
    let free = |k: u32| !a.depends(k - 1) || m >> (k - 1) & 1 == 1;
    !members(m).all(free)
}

/// "lowers every index of the set m at the same moment"; "The answer's nodes are put in as build
/// puts them in."
pub fn lows(set: &mut Set, a: &Tensor, m: u32) -> Tensor {
    build(set, &a.lowered(m))
}

fn lower_top(a: &Tensor, b: &Tensor) -> Option<u32> {
    a.top().into_iter().chain(b.top()).min()
}
