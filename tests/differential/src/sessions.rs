//! Session texts: calls of every kind, lists of gates, garbage. Those that are after a fault of
//! remembering are in `repeats`, those that lower indices in both ways in `lowerings`, the largest
//! in `huge`.

use crate::case::{cache_words, capacity, store_bytes, Case, Kind, Sizes};
use crate::circuit::{random_gate, random_list, relation, second};
use crate::draft::Draft;
use crate::lowerings::{lowerings, tight};
use crate::repeats::{refused, repeats};
use crate::rng::Rng;
use crate::spoil::noise;
use tally::gate::Gate;

#[derive(Clone, Copy)]
enum Style {
    Calls,
    Circuits,
    Repeats,
    Garbage,
    Refused,
    Lowerings,
    Tight,
}

pub fn make(rng: &mut Rng) -> Case {
    use Style::{Calls, Circuits, Garbage, Lowerings, Refused, Repeats, Tight};
    let styles = [Calls, Circuits, Repeats, Garbage, Refused, Lowerings, Tight];
    let style = styles[rng.weighted(&[30, 18, 32, 6, 14, 14, 6])];
    let (text, capacity) = text(rng, style);
    let earlier = rng.percent(25).then(|| self::text(rng, style).0);
    let lines = text.iter().filter(|&&b| b == b'\n').count();
    Case {
        kind: Kind::Session,
        stepwise: lines <= 60 && rng.percent(20),
        sizes: sizes(rng, capacity, lines),
        text,
        earlier,
    }
}

fn sizes(rng: &mut Rng, capacity: usize, lines: usize) -> Sizes {
    let out_bytes = match rng.weighted(&[4, 8, 28, 60]) {
        0 => rng.below(16),
        1 => rng.between(16, 64),
        2 => rng.between(65, 400),
        _ => 16 * lines + rng.between(0, 64),
    };
    Sizes {
        store_bytes: store_bytes(rng, capacity),
        cache_words: cache_words(rng),
        out_bytes,
        dirt: rng.next(),
    }
}

/// A text and the capacity that it is meant for.
fn text(rng: &mut Rng, style: Style) -> (Vec<u8>, usize) {
    let capacity = capacity(rng);
    let spoiled = *rng.pick(&[0, 0, 3, 10]);
    let last = *rng.pick(&[2, 3, 5, 15]);
    let widest = *rng.pick(&[6, 8, 10]);
    let mut draft = Draft::new(rng, capacity);
    draft.spoiled = spoiled;
    draft.last = last;
    draft.widest = widest;
    match style {
        Style::Calls => calls(&mut draft),
        Style::Circuits => circuits(&mut draft),
        Style::Repeats => repeats(&mut draft),
        Style::Garbage => garbage(&mut draft),
        Style::Lowerings => lowerings(&mut draft),
        Style::Refused => return refused(rng),
        Style::Tight => return tight(rng),
    }
    let mut text = draft.text;
    if rng.percent(20) {
        // The last LF.
        text.pop();
    }
    (text, capacity)
}

/// Calls of every kind, on few qubits that may lie anywhere.
fn calls(draft: &mut Draft) {
    let base = draft.rng.below(7) as u32;
    let n = draft.rng.between(1, 3) as u32;
    for _ in 0..draft.rng.between(1, 80) {
        call(draft, base, n);
    }
}

/// One random call. Qubits are `base` and those after it, as far as there are any.
pub fn call(draft: &mut Draft, base: u32, n: u32) {
    let (d, a, b) = (draft.any(), draft.filled(), draft.filled());
    match draft.rng.weighted(&[22, 4, 6, 14, 20, 20, 7, 7, 6, 10, 6]) {
        0 => {
            let gate = random_gate(draft.rng, n, false);
            let gate = placed(draft.rng, gate, base);
            draft.gate(d, &gate);
        }
        1 => {
            let n = draft.rng.between(1, 4);
            draft.say(&format!("unit {d} {n}"));
        }
        2 => {
            let w = constant(draft.rng);
            draft.say(&format!("put {d} {w}"));
        }
        3 => draft.say(&format!("add {d} {a} {b}")),
        4 => {
            let m = draft.mask(a, b);
            draft.say(&format!("cont {d} {a} {b} {m}"));
        }
        5 => lower(draft, d, a),
        6 => draft.say(&format!("drop {a}")),
        7 => draft.say("collect"),
        8 => {
            let v = draft.rng.below(1 << 24);
            draft.say(&format!("at {a} {v}"));
        }
        9 => draft.say(&format!("cmp {a} {b}")),
        _ => draft.say(&format!("on {a}")),
    }
}

/// One index or a set of indices lowered.
pub fn lower(draft: &mut Draft, d: usize, a: usize) {
    if draft.rng.percent(50) {
        let k = draft.lowered(a);
        draft.say(&format!("low {d} {a} {k}"));
    } else {
        let m = draft.lowered_set(a);
        draft.say(&format!("lows {d} {a} {m}"));
    }
}

/// The gate moved up by `base` qubits, which may be out of range; now and then its qubits become
/// equal.
fn placed(rng: &mut Rng, mut gate: Gate, base: u32) -> Gate {
    for q in &mut gate.qubits {
        *q += base;
    }
    if rng.percent(4) {
        let q = gate.qubits[0];
        gate.qubits.fill(q);
    }
    gate
}

fn constant(rng: &mut Rng) -> usize {
    match rng.weighted(&[10, 20, 20, 50]) {
        0 => 0,
        1 => rng.between(1, 3),
        2 => rng.between(65_534, 65_536),
        _ => rng.below(65_537),
    }
}

/// Two lists of gates, as a verdict runs them but with collections left out here and there, and the
/// registers compared.
fn circuits(draft: &mut Draft) {
    let wide = draft.rng.percent(3);
    let (n, len) = match wide {
        true => (draft.rng.between(5, 8) as u32, draft.rng.between(0, 4)),
        false => (draft.rng.between(1, 4) as u32, draft.rng.between(0, 10)),
    };
    draft.widest = 2 * n + 4;
    let first = random_list(draft.rng, n, len, wide);
    let relation = relation(draft.rng);
    let second = second(draft.rng, n, &first, relation);
    for (d, list) in [(0, &first), (1, &second)] {
        draft.say(&format!("unit {d} {n}"));
        for gate in list {
            let t = draft.rng.between(2, 3);
            draft.apply(gate, d, t);
        }
    }
    draft.say("on 0");
    draft.say("cmp 0 1");
    if draft.rng.percent(50) {
        draft.say("collect");
        draft.say("cmp 1 0");
    }
}

/// Hardly a call among them.
fn garbage(draft: &mut Draft) {
    draft.spoiled = 85;
    for _ in 0..draft.rng.between(0, 30) {
        if draft.rng.percent(30) {
            let bytes = noise(draft.rng);
            draft.add(&bytes);
        } else {
            call(draft, 0, 2);
        }
    }
}
