//! Verdicts: "`lines` and n (1 to 8); gate lines, name then qubits as single digits; a line `=`;
//! gate lines."

use crate::call::{Answer, Call};
use crate::gate::{fresh, middle, Gate, Name};
use crate::session::Tally;
use crate::text::{fields, lines, number};

/// A text without fault. Line numbers count from 1.
#[derive(Clone, Debug, PartialEq, Eq)]
pub struct Lists {
    pub n: u32,
    pub first: Vec<Gate>,
    pub second: Vec<Gate>,
}

/// A refusal's number and line.
#[derive(Clone, Copy, Debug, PartialEq, Eq)]
pub struct Fault {
    pub number: u32,
    pub line: usize,
}

#[derive(Clone, Debug, PartialEq, Eq)]
pub enum Ruling {
    Same,
    Factor(u32),
    Differ,
    No(Fault),
}

impl Ruling {
    /// "Text, split, parted and answered as in sessions"; "Refused as `no`, number, line counted
    /// from 1".
    pub fn bytes(&self) -> Vec<u8> {
        let line = match self {
            Ruling::Same => "same\n".to_string(),
            Ruling::Factor(f) => format!("factor\t{f}\n"),
            Ruling::Differ => "differ\n".to_string(),
            Ruling::No(fault) => format!("no\t{}\t{}\n", fault.number, fault.line),
        };
        line.into_bytes()
    }
}

pub struct Verdict {
    pub code: u64,
    /// None where the output is too short.
    pub ruling: Option<Ruling>,
    pub output: Vec<u8>,
}

/// "Fewer than 32 output bytes returns 9 and writes nothing, before any reading; otherwise the code
/// is 0, also with `no`."
pub fn verdict(text: &[u8], capacity: usize, room: usize) -> Verdict {
    if room < 32 {
        return Verdict {
            code: 9,
            ruling: None,
            output: Vec::new(),
        };
    }
    let ruling = match read(text) {
        Err(fault) => Ruling::No(fault),
        Ok(lists) => judge(&lists, &mut Tally::new(capacity)),
    };
    Verdict {
        code: 0,
        output: ruling.bytes(),
        ruling: Some(ruling),
    }
}

/// "All lines are read before any gate runs; the first faulty line decides."
pub fn read(text: &[u8]) -> Result<Lists, Fault> {
    let lines = lines(text);
    let fault = |number, line| Fault { number, line };
    // "Empty text is 10 at 1."
    let header = lines.first().ok_or(fault(10, 1))?;
    let n = header_of(header).ok_or(fault(10, 1))?;
    let mut lists = [Vec::new(), Vec::new()];
    let mut list = 0;
    for (line, i) in lines.iter().zip(1..).skip(1) {
        if *line != b"=" {
            lists[list].push(gate_of(line, n).map_err(|number| fault(number, i))?);
        } else if list == 0 {
            list = 1;
        } else {
            // "14 a second `=`, at its own line"
            return Err(fault(14, i));
        }
    }
    if list == 0 {
        // "or no `=`, at the line after the last"
        return Err(fault(14, lines.len() + 1));
    }
    let [first, second] = lists;
    Ok(Lists { n, first, second })
}

/// "10 bad first line"
fn header_of(line: &[u8]) -> Option<u32> {
    match fields(line)[..] {
        [b"lines", n] => number(n).filter(|n| (1..=8).contains(n)),
        _ => None,
    }
}

/// "within a gate line 11 (unknown name, wrong count of fields, or a qubit not one digit), 12
/// (qubit not below n), 13 (qubits equal)"
fn gate_of(line: &[u8], n: u32) -> Result<Gate, u32> {
    let fields = fields(line);
    let name = Name::read(fields[0]).ok_or(11u32)?;
    if fields.len() != 1 + name.qubits() {
        return Err(11);
    }
    let digits = fields[1..].iter().map(|f| digit(f));
    let qubits: Vec<u32> = digits.collect::<Option<_>>().ok_or(11u32)?;
    if qubits.iter().any(|&q| q >= n) {
        return Err(12);
    }
    if qubits.len() == 2 && qubits[0] == qubits[1] {
        return Err(13);
    }
    Ok(Gate { name, qubits })
}

fn digit(field: &[u8]) -> Option<u32> {
    number(field).filter(|_| field.len() == 1)
}

/// "It runs as this session: `unit` in 0; each gate of the first list into 2, [...]; then the same
/// in register 1; then `cmp 0 1`."
pub fn judge(lists: &Lists, tally: &mut Tally) -> Ruling {
    let equals = 2 + lists.first.len();
    let full = |line| Ruling::No(Fault { number: 8, line });
    // "8 full, at the line being run, a unit at its header or `=`"
    for (list, d, line) in [(&lists.first, 0, 1), (&lists.second, 1, equals)] {
        if tally.call(&Call::Unit { d, n: lists.n }).is_err() {
            return full(line);
        }
        for (gate, i) in list.iter().zip(line + 1..) {
            if !apply(tally, gate, d) {
                return full(i);
            }
        }
    }
    match tally.call(&Call::Cmp { a: 0, b: 1 }) {
        Ok(Answer::Same) => Ruling::Same,
        Ok(Answer::Factor(f)) => Ruling::Factor(f),
        Ok(Answer::Differ) => Ruling::Differ,
        other => unreachable!("cmp of filled registers answers {other:?}"),
    }
}

/// "each gate [...] into 2, `cont 0 2 0` over the middles of its qubits, `low` of their fresh
/// indices in rising order, `drop 2`, `collect`". Says whether no call was refused.
fn apply(tally: &mut Tally, gate: &Gate, d: usize) -> bool {
    let m = gate.qubits.iter().fold(0, |m, &q| m | 1 << middle(q));
    let mut rising = gate.qubits.clone();
    rising.sort_unstable();
    let mut calls = vec![
        Call::Gate {
            d: 2,
            gate: gate.clone(),
        },
        Call::Cont { d, a: 2, b: d, m },
    ];
    let lowered = rising.into_iter().map(fresh);
    calls.extend(lowered.map(|k| Call::Low { d, a: d, k }));
    calls.extend([Call::Drop { a: 2 }, Call::Collect]);
    calls.iter().all(|call| tally.call(call).is_ok())
}
