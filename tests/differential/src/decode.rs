//! The store's bytes as plain tables.
//!
//! "Node n fills the store's bytes 16(n-1) to 16n-1, the places of its fields being the builder's."
//! The engine's are two bytes each, low byte first: field 0 is index + 256 * low weight + 512 *
//! (high weight / 65536), field 1 the low node, field 2 the high weight % 65536, field 3 the high
//! node, field 6 the mask % 65536, field 7 the mask / 65536.

use tally::tensor::{Tensor, INDICES};

#[derive(Clone, Copy, Debug, PartialEq, Eq)]
pub struct Node {
    pub index: u32,
    /// Weight and node.
    pub low: (u32, usize),
    pub high: (u32, usize),
    pub mask: u32,
}

pub fn node(store: &[u8], n: usize) -> Node {
    let record = &store[16 * (n - 1)..16 * n];
    let field = |f: usize| u32::from(record[2 * f]) + 256 * u32::from(record[2 * f + 1]);
    let packed = field(0);
    Node {
        index: packed % 256,
        low: (packed / 256 % 2, field(1) as usize),
        high: (field(2) + 65_536 * (packed / 512 % 2), field(3) as usize),
        mask: field(6) + 65_536 * field(7),
    }
}

/// The tensors of nodes 0 to count, "Node 0 is the constant 1".
pub fn tensors(store: &[u8], count: usize) -> Result<Vec<Tensor>, String> {
    let mut tensors = vec![Tensor::constant(1)];
    for n in 1..=count {
        let node = node(store, n);
        let t = tensor(&node, &tensors).map_err(|why| format!("node {n}, {node:?}: {why}"))?;
        tensors.push(t);
    }
    Ok(tensors)
}

/// "At 0 and 1 of its index a node's tensor is the low and high weight times the tensor of that
/// edge's node; it is normal." Its record "carries the mask of the indices on which its tensor
/// depends".
fn tensor(node: &Node, before: &[Tensor]) -> Result<Tensor, &'static str> {
    if node.index >= INDICES {
        return Err("no such index");
    }
    let low = edge(node.low, before)?;
    let high = edge(node.high, before)?;
    if [&low, &high]
        .iter()
        .any(|t| t.top().is_some_and(|top| top <= node.index))
    {
        return Err("an edge leads to an index that is not above its own");
    }
    let t = Tensor::split(node.index, &low, &high);
    if t.top() != Some(node.index) {
        return Err("low and high are equal");
    }
    if !t.is_normal() {
        return Err("not normal");
    }
    if node.mask != t.mask() {
        return Err("not the mask of its tensor");
    }
    Ok(t)
}

/// A weight times a node's tensor. "Zero is weight 0 at node 0."
pub fn edge((weight, node): (u32, usize), tensors: &[Tensor]) -> Result<Tensor, &'static str> {
    if weight > 65_536 {
        return Err("a weight above 65536");
    }
    if weight == 0 && node != 0 {
        return Err("weight 0 at a node that is not 0");
    }
    let t = tensors
        .get(node)
        .ok_or("an edge leads to no earlier node")?;
    Ok(t.scaled(weight))
}
