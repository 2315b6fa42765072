//! Session lines into calls.
//!
//! "Line checks come in this order: 1 (unknown word, wrong count of fields, malformed number); then
//! each field from the left (2 register above 15, 4 out of range, 5 gate name); 6; 3 from the left;
//! 7; 8." Here 1, 2, 4, 5 and 6; the others depend on registers and set.

use crate::call::{Call, Refusal, EQUAL_QUBITS, MALFORMED, NAME, RANGE, REGISTER};
use crate::gate::{Gate, Name};
use crate::text::{fields, number};

/// What a field has to be.
#[derive(Clone, Copy, PartialEq)]
enum Kind {
    Register,
    Number(u32, u32),
    /// A set of indices to lower.
    Lowered,
    GateName,
}

use Kind::{GateName, Lowered, Number, Register};

const WEIGHT: Kind = Number(0, 65_536);
const QUBIT: Kind = Number(0, 7);
const QUBITS: Kind = Number(1, 8);
const LAST_MASK: u32 = 16_777_215;
const MASK: Kind = Number(0, LAST_MASK);
const INDEX: Kind = Number(1, 23);

/// The fields after the word. "Fields here number 4 or 5" is of `gate`.
fn kinds(word: &[u8], count: usize) -> Option<Vec<Kind>> {
    let kinds: &[Kind] = match word {
        b"put" => &[Register, WEIGHT],
        b"gate" if count == 5 => &[Register, GateName, QUBIT, QUBIT],
        b"gate" => &[Register, GateName, QUBIT],
        b"unit" => &[Register, QUBITS],
        b"add" => &[Register, Register, Register],
        b"cont" => &[Register, Register, Register, MASK],
        b"low" => &[Register, Register, INDEX],
        b"drop" | b"on" => &[Register],
        b"collect" => &[],
        b"at" => &[Register, MASK],
        b"cmp" => &[Register, Register],
        b"lows" => &[Register, Register, Lowered],
        _ => return None,
    };
    (kinds.len() + 1 == count).then(|| kinds.to_vec())
}

/// The call of a line, or the number that refuses it.
pub fn read(line: &[u8]) -> Result<Call, Refusal> {
    let fields = fields(line);
    let kinds = kinds(fields[0], fields.len()).ok_or(MALFORMED)?;
    let numbers = numbers(&kinds, &fields[1..]).ok_or(MALFORMED)?;
    for (i, &kind) in kinds.iter().enumerate() {
        check(kind, numbers[i], fields[i + 1], kinds.len())?;
    }
    let call = assemble(&fields, &numbers);
    match &call {
        Call::Gate { gate, .. } if gate.qubits.len() == 2 && gate.qubits[0] == gate.qubits[1] => {
            Err(EQUAL_QUBITS)
        }
        _ => Ok(call),
    }
}

/// The number of each field, 0 standing for a name.
fn numbers(kinds: &[Kind], fields: &[&[u8]]) -> Option<Vec<u32>> {
    let each = kinds.iter().zip(fields);
    each.map(|(&kind, field)| match kind {
        GateName => Some(0),
        _ => number(field),
    })
    .collect()
}

/// `count` is the number of fields after the word, two of which are not qubits where there is a
/// name.
fn check(kind: Kind, value: u32, field: &[u8], count: usize) -> Result<(), Refusal> {
    match kind {
        Register if value > 15 => Err(REGISTER),
        Number(least, most) if !(least..=most).contains(&value) => Err(RANGE),
        // "Mask bit 0 set, or a mask above 16777215, is 4."
        Lowered if value % 2 == 1 || value > LAST_MASK => Err(RANGE),
        // "5 (name not below, or wrong count of qubits for it)"
        GateName => match Name::read(field) {
            Some(name) if name.qubits() == count - 2 => Ok(()),
            _ => Err(NAME),
        },
        _ => Ok(()),
    }
}

/// The call of checked fields.
fn assemble(fields: &[&[u8]], n: &[u32]) -> Call {
    let r = |i: usize| n[i] as usize;
    match fields[0] {
        b"put" => Call::Put { d: r(0), w: n[1] },
        b"gate" => {
            let name = Name::read(fields[2]).expect("checked");
            let qubits = n[2..].to_vec();
            let gate = Gate { name, qubits };
            Call::Gate { d: r(0), gate }
        }
        b"unit" => Call::Unit { d: r(0), n: n[1] },
        b"add" => Call::Add {
            d: r(0),
            a: r(1),
            b: r(2),
        },
        b"cont" => Call::Cont {
            d: r(0),
            a: r(1),
            b: r(2),
            m: n[3],
        },
        b"low" => Call::Low {
            d: r(0),
            a: r(1),
            k: n[2],
        },
        b"drop" => Call::Drop { a: r(0) },
        b"collect" => Call::Collect,
        b"at" => Call::At { a: r(0), v: n[1] },
        b"cmp" => Call::Cmp { a: r(0), b: r(1) },
        b"on" => Call::On { a: r(0) },
        _ => Call::Lows {
            d: r(0),
            a: r(1),
            m: n[2],
        },
    }
}
