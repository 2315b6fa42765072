//! Verdict texts.

use crate::case::{cache_words, store_bytes, Case, Kind, Sizes};
use crate::circuit::{random_list, relation, second};
use crate::rng::Rng;
use crate::spoil::{noise, spoil};
use tally::gate::Gate;
use tally::session::Tally;
use tally::verdict::{judge, read};

pub fn make(rng: &mut Rng) -> Case {
    let lines = if rng.percent(1) {
        long(rng)
    } else {
        lists(rng)
    };
    let text = if rng.percent(35) {
        faulty(rng, lines)
    } else {
        joined(rng, &lines)
    };
    let earlier = rng.percent(25).then(|| {
        let lines = lists(rng);
        joined(rng, &lines)
    });
    let capacity = capacity(rng, &text);
    let out_bytes = match rng.weighted(&[8, 42, 50]) {
        0 => rng.below(32),
        1 => 32,
        _ => rng.between(33, 300),
    };
    Case {
        kind: Kind::Verdict,
        text,
        earlier,
        stepwise: false,
        sizes: Sizes {
            store_bytes: store_bytes(rng, capacity),
            cache_words: cache_words(rng),
            out_bytes,
            dirt: rng.next(),
        },
    }
}

/// Two lists that stand to each other in one of the ways of `Relation`.
fn lists(rng: &mut Rng) -> Vec<Vec<u8>> {
    let wide = rng.percent(10);
    let n = if wide {
        rng.between(5, 8)
    } else {
        1 + rng.weighted(&[25, 40, 25, 10])
    } as u32;
    let len = rng.between(0, if wide { 6 } else { 12 });
    let first = random_list(rng, n, len, wide);
    let relation = relation(rng);
    let second = second(rng, n, &first, relation);
    let mut lines = vec![format!("lines\t{n}").into_bytes()];
    lines.extend(first.iter().map(line));
    lines.push(b"=".to_vec());
    lines.extend(second.iter().map(line));
    lines
}

/// Hundreds of gates on one qubit, for line numbers of several digits.
fn long(rng: &mut Rng) -> Vec<Vec<u8>> {
    let mut lines = vec![b"lines\t1".to_vec()];
    for _ in 0..2 {
        let len = rng.between(0, 600);
        lines.extend(random_list(rng, 1, len, false).iter().map(line));
        lines.push(b"=".to_vec());
    }
    if rng.percent(80) {
        lines.pop();
    }
    lines
}

fn line(gate: &Gate) -> Vec<u8> {
    let qubits: String = gate.qubits.iter().map(|q| format!("\t{q}")).collect();
    format!("{}{qubits}", gate.name.word()).into_bytes()
}

/// The text of the lines; the last LF may be missing.
fn joined(rng: &mut Rng, lines: &[Vec<u8>]) -> Vec<u8> {
    let mut text = lines.join(&b'\n');
    if rng.percent(80) && !lines.is_empty() {
        text.push(b'\n');
    }
    text
}

/// A text with one fault or more.
fn faulty(rng: &mut Rng, mut lines: Vec<Vec<u8>>) -> Vec<u8> {
    if rng.percent(4) {
        return noise(rng);
    }
    for _ in 0..rng.between(1, 2) {
        let i = rng.below(lines.len());
        match rng.weighted(&[40, 10, 15, 10, 10, 10, 5]) {
            0 => lines[i] = spoil(rng, &lines[i]),
            1 => lines.insert(i, b"=".to_vec()),
            2 => lines.retain(|line| line != b"="),
            3 => lines.insert(i + 1, high_qubit(rng)),
            4 => lines.insert(i + 1, equal_qubits(rng)),
            5 => lines[0] = header(rng),
            _ => lines.truncate(i),
        }
        if lines.is_empty() {
            break;
        }
    }
    joined(rng, &lines)
}

fn header(rng: &mut Rng) -> Vec<u8> {
    let headers: [&[u8]; 12] = [
        b"",
        b"lines",
        b"lines\t0",
        b"lines\t9",
        b"lines\t01",
        b"lines\t1\t",
        b"lines 1",
        b"Lines\t1",
        b"lines\t",
        b"lines\t1\r",
        b"lines\t000000001",
        b"\tlines\t1",
    ];
    rng.pick(&headers).to_vec()
}

fn high_qubit(rng: &mut Rng) -> Vec<u8> {
    let q = rng.between(1, 11);
    let line = *rng.pick(&["H\tq", "CX\t0\tq", "SW\tq\t0", "CZ\tq\tq"]);
    line.replace('q', &q.to_string()).into_bytes()
}

fn equal_qubits(rng: &mut Rng) -> Vec<u8> {
    let q = rng.below(3);
    format!("{}\t{q}\t{q}", rng.pick(&["CX", "CZ", "SW"])).into_bytes()
}

/// Ample, just enough, one too few, or any: what the text needs is told by a tally of unlimited
/// capacity.
fn capacity(rng: &mut Rng, text: &[u8]) -> usize {
    let mut tally = Tally::new(usize::MAX);
    if let Ok(lists) = read(text) {
        judge(&lists, &mut tally);
    }
    let needed = tally.peak;
    match rng.weighted(&[45, 15, 15, 15, 10]) {
        0 => needed + rng.below(2000),
        1 => needed,
        2 => needed.saturating_sub(1),
        3 => rng.below(needed + 1),
        _ => rng.below(3000),
    }
}
