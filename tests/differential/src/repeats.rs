//! Sessions after the fault that the engine exists to rule out: a remembered result that is used for
//! other tensors, which have taken the places of those it was made from.

use crate::circuit::random_gate;
use crate::draft::Draft;
use crate::rng::Rng;
use crate::sessions::call;

/// The same operations on the same registers again and again, other tensors taking their places in
/// the store between: after a collection, and after refused calls.
pub fn repeats(draft: &mut Draft) {
    let n = draft.rng.between(1, 3) as u32;
    let wanted = draft.rng.between(1, 3);
    let operations: Vec<String> = (0..wanted).map(|_| operation(draft)).collect();
    for _ in 0..draft.rng.between(2, 8) {
        refill(draft, n);
        for _ in 0..draft.rng.between(1, 2) {
            for line in &operations {
                draft.say(line);
            }
        }
        let a = draft.filled();
        let v = draft.rng.below(1 << (3 * n));
        draft.say(&format!("at {a} {v}"));
        release(draft);
        let kept = draft.filled();
        draft.say(&format!("on {kept}"));
    }
}

/// An operation on registers 0 and 1, its answer in 2 or 3.
fn operation(draft: &mut Draft) -> String {
    let d = draft.rng.between(2, 3);
    match draft.rng.weighted(&[55, 20, 10, 15]) {
        0 => {
            let m = *draft.rng.pick(&[0, 2, 4, 6, 16, 18, 36, 54, 16_777_215]);
            format!("cont {d} 0 1 {m}")
        }
        1 => format!("add {d} 0 1"),
        2 => format!("low {d} 0 {}", draft.rng.pick(&[1, 3, 4, 6])),
        _ => {
            let m = *draft.rng.pick(&[2, 4, 6, 18, 48, 54, 62, 438, 16_777_214]);
            format!("lows {d} 0 {m}")
        }
    }
}

/// Other gates into 0 and 1, and now and then something beside them that takes places in the store.
fn refill(draft: &mut Draft, n: u32) {
    for d in 0..2 {
        if draft.rng.percent(85) {
            let gate = random_gate(draft.rng, n, false);
            draft.gate(d, &gate);
        }
    }
    if draft.rng.percent(30) {
        call(draft, 0, n);
    }
}

/// Empties registers, often all, and mostly collects.
fn release(draft: &mut Draft) {
    let all = draft.rng.percent(50);
    for a in 0..4 {
        if draft.tally.registers[a].is_some() && (all || draft.rng.percent(50)) {
            draft.say(&format!("drop {a}"));
        }
    }
    if draft.rng.percent(75) {
        draft.say("collect");
    }
}

/// A call that does not fit, other tensors in the places that it had taken, then a call that is a
/// part of it. Register 0 is a product of gates on two qubits, and 3 the gate on the second: what 0
/// gives, with 1 or lowered, holds what 3 gives. The capacity is less than the first call needs.
pub fn refused(rng: &mut Rng) -> (Vec<u8>, usize) {
    let mut draft = Draft::new(rng, usize::MAX);
    draft.last = 4;
    for (d, names) in [(0, "HTYX"), (3, "XZSH"), (1, "HTYS")] {
        let name = *draft.rng.pick(names.as_bytes()) as char;
        draft.say(&format!("gate {d} {name} {}", usize::from(d != 0)));
    }
    draft.say("cont 0 0 3 0");
    let calls = whole_and_part(&mut draft);
    let before = draft.tally.set.count();
    draft.say(&calls[0]);
    let after = draft.tally.set.count().max(before + 1);
    let a = draft.rng.between(0, 3);
    draft.say(&format!("on {a}"));
    for _ in 0..draft.rng.between(1, 2) {
        let gate = random_gate(draft.rng, 3, false);
        draft.gate(4, &gate);
    }
    for _ in 0..draft.rng.between(1, 3) {
        let again = &calls[usize::from(draft.rng.percent(80))];
        draft.say(again);
        call(&mut draft, 0, 3);
    }
    let text = draft.text;
    let least = before.max(after.saturating_sub(4));
    (text, rng.between(least, after - 1))
}

/// A call on register 0, and the same on 3.
fn whole_and_part(draft: &mut Draft) -> [String; 2] {
    match draft.rng.weighted(&[50, 30, 20]) {
        0 => {
            let m = *draft.rng.pick(&[0, 16, 32, 48]);
            [0, 3].map(|a| format!("cont 2 {a} 1 {m}"))
        }
        1 => [0, 3].map(|a| format!("add 2 {a} 1")),
        _ => {
            let m = *draft.rng.pick(&[16, 48, 54]);
            [0, 3].map(|a| format!("lows 2 {a} {m}"))
        }
    }
}
