//! The right model with one thing changed in what it gives back.

use super::model::Model;
use crate::engine::{Edge, Engine, Session, Verdict};

#[derive(Clone, Copy, Debug, PartialEq, Eq)]
pub enum Alteration {
    Code,
    Lines,
    Bytes,
    Count,
    WrittenByte,
    UntouchedByte,
    EmptyRegister,
    FilledRegister,
    RegisterWeight,
    RegisterNode,
    NodeWeight,
    NodeEdge,
    NodeIndex,
    NodeMaskLow,
    NodeMaskHigh,
    NodesExchanged,
    VerdictCode,
    VerdictBytes,
    VerdictWritten,
    VerdictUntouched,
}

use Alteration::*;

pub const ALTERATIONS: [(Alteration, &str); 20] = [
    (Code, "another code"),
    (Lines, "another count of lines"),
    (Bytes, "another count of bytes"),
    (Count, "another node count"),
    (WrittenByte, "one written byte"),
    (UntouchedByte, "one byte after those written"),
    (EmptyRegister, "a filled register shown empty"),
    (FilledRegister, "an empty register shown filled"),
    (RegisterWeight, "a register's weight"),
    (RegisterNode, "a register's node"),
    (NodeWeight, "a node's high weight in the store"),
    (NodeEdge, "a node's low edge in the store"),
    (NodeIndex, "a node's index in the store"),
    (NodeMaskLow, "the first bit of a node's mask in the store"),
    (NodeMaskHigh, "a bit after a node's mask in the store"),
    (NodesExchanged, "two nodes exchanged in the store"),
    (VerdictCode, "another code of a verdict"),
    (VerdictBytes, "another count of a verdict's bytes"),
    (VerdictWritten, "one written byte of a verdict"),
    (VerdictUntouched, "one byte after a verdict"),
];

pub struct Altered {
    alteration: Alteration,
    model: Model,
}

impl Altered {
    pub fn new(alteration: Alteration) -> Altered {
        Altered {
            alteration,
            model: Model::right(),
        }
    }

    fn result(&self, r: &mut Session) {
        let filled = r.registers.iter().position(Option::is_some);
        let empty = r.registers.iter().position(Option::is_none);
        match (self.alteration, filled, empty) {
            (Code, ..) => r.code ^= 9,
            (Lines, ..) => r.lines += 1,
            (Bytes, ..) => r.bytes += 1,
            (Count, ..) => r.count += 1,
            (EmptyRegister, Some(i), _) => r.registers[i] = None,
            (FilledRegister, _, Some(i)) => r.registers[i] = Some(Edge { weight: 0, node: 0 }),
            (RegisterWeight, Some(i), _) => {
                r.registers[i] = r.registers[i].map(|e| Edge {
                    weight: e.weight % 65_536 + 1,
                    ..e
                });
            }
            (RegisterNode, Some(i), _) => {
                r.registers[i] = r.registers[i].map(|e| Edge {
                    node: (e.node + 1) % (r.count + 1),
                    ..e
                });
            }
            _ => {}
        }
    }

    /// The bytes of the last node, and of the one before.
    fn nodes(&self, store: &mut [u8], count: usize) {
        if count < 2 {
            return;
        }
        let last = 16 * (count - 1);
        match self.alteration {
            NodeWeight => store[last + 4] ^= 1,
            NodeEdge => store[last + 2] ^= 1,
            NodeIndex => store[last] ^= 1,
            NodeMaskLow => store[last + 12] ^= 1,
            NodeMaskHigh => store[last + 15] ^= 1,
            NodesExchanged => {
                for i in last..last + 16 {
                    store.swap(i, i - 16);
                }
            }
            _ => {}
        }
    }

    /// The last of the written bytes that is no LF, and the last of the others.
    fn output(&self, out: &mut [u8], bytes: usize, written: Alteration, untouched: Alteration) {
        if self.alteration == written && bytes > 1 {
            out[bytes - 2] ^= 1;
        }
        if self.alteration == untouched && bytes < out.len() {
            out[out.len() - 1] ^= 1;
        }
    }
}

impl Engine for Altered {
    fn session(
        &mut self,
        text: &[u8],
        store: &mut [u8],
        cache: &mut [u64],
        out: &mut [u8],
    ) -> Session {
        let mut r = self.model.session(text, store, cache, out);
        self.output(out, r.bytes as usize, WrittenByte, UntouchedByte);
        self.nodes(store, r.count as usize);
        self.result(&mut r);
        r
    }

    fn verdict(
        &mut self,
        text: &[u8],
        store: &mut [u8],
        cache: &mut [u64],
        out: &mut [u8],
    ) -> Verdict {
        let mut r = self.model.verdict(text, store, cache, out);
        self.output(out, r.bytes as usize, VerdictWritten, VerdictUntouched);
        match self.alteration {
            VerdictCode => r.code ^= 9,
            VerdictBytes => r.bytes += 1,
            _ => {}
        }
        r
    }
}
