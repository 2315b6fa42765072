//! Sessions that lower indices one by one and in sets, on the same registers.

use crate::circuit::random_gate;
use crate::draft::{free, Draft, ALL};
use crate::rng::Rng;
use crate::sessions::lower;

/// Products of gates, lowered in both ways again and again, with collections between.
pub fn lowerings(draft: &mut Draft) {
    draft.last = 3;
    for _ in 0..draft.rng.between(1, 4) {
        product(draft);
        for _ in 0..draft.rng.between(2, 12) {
            step(draft);
        }
    }
}

/// Register 0 becomes a product or a sum of gates on any qubits, by way of register 1.
fn product(draft: &mut Draft) {
    let call = *draft.rng.pick(&["cont 0 0 1 0", "add 0 0 1"]);
    let gate = random_gate(draft.rng, 8, false);
    draft.gate(0, &gate);
    for _ in 0..draft.rng.between(0, 2) {
        let gate = random_gate(draft.rng, 8, false);
        draft.gate(1, &gate);
        draft.say(call);
    }
}

fn step(draft: &mut Draft) {
    let (d, a, b) = (draft.any(), draft.filled(), draft.filled());
    match draft.rng.weighted(&[45, 15, 10, 12, 4, 5, 5, 4]) {
        0 => lower(draft, d, a),
        1 => both_ways(draft),
        2 => of_one_number(draft),
        3 => draft.say("collect"),
        4 => draft.say(&format!("drop {a}")),
        5 => draft.say(&format!("cmp {a} {b}")),
        6 => draft.say(&format!("on {a}")),
        _ => {
            let v = draft.rng.below(1 << 24);
            draft.say(&format!("at {a} {v}"));
        }
    }
}

/// A set lowered together in register 2 and one after the other in 3, and the two compared.
fn both_ways(draft: &mut Draft) {
    let a = draft.rng.below(2);
    let m = free(draft.support(a), draft.rng.next() as u32 & ALL);
    draft.say(&format!("lows 2 {a} {m}"));
    if draft.rng.percent(30) {
        draft.say("collect");
    }
    draft.singly(3, a, m);
    draft.say("cmp 2 3");
}

/// An index lowered, and the set that is written as the same number.
fn of_one_number(draft: &mut Draft) {
    let a = draft.rng.below(2);
    let number = 2 * draft.rng.between(1, 11);
    let words = *draft.rng.pick(&[["low", "lows"], ["lows", "low"]]);
    for (d, word) in (2..).zip(words) {
        draft.say(&format!("{word} {d} {a} {number}"));
    }
}

/// A set lowered together and one after the other, at a capacity between what the one needs, or a
/// node less, and what the other needs.
pub fn tight(rng: &mut Rng) -> (Vec<u8>, usize) {
    let mut draft = Draft::new(rng, usize::MAX);
    product(&mut draft);
    draft.say("drop 1");
    draft.say("collect");
    let before = draft.tally.set.count();
    let support = draft.support(0);
    let m = free(support, support);
    draft.say(&format!("lows 1 0 {m}"));
    let together = draft.tally.set.count();
    draft.singly(2, 0, m);
    let singly = draft.tally.set.count();
    draft.say("cmp 1 2");
    draft.say("collect");
    for _ in 0..draft.rng.between(0, 3) {
        step(&mut draft);
    }
    let text = draft.text;
    let least = before.max(together.saturating_sub(1));
    (text, rng.between(least, singly))
}
