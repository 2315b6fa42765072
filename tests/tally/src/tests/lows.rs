//! Document 02's call `lows`, worked out by hand.
//!
//! H on qubit 0 depends on the indices 1 and 2 and has a node at each: at 2 the node of 1 and -1,
//! and at 1 its own, the top, whose low edge leads to the constant 1.

use super::answers;
use crate::session::session;
use crate::tensor::{Tensor, INDICES};

/// The answer to `lows 1 0 m` where register 0 is H on qubit 0.
fn of_h(m: u32) -> String {
    let lines = ["gate 0 H 0", &format!("lows 1 0 {m}")];
    answers(&lines, 2048).pop().unwrap()
}

#[test]
fn a_chain_goes_down_once() {
    let lines = ["gate 0 H 0", "lows 0 0 6", "on 0", "at 0 3", "at 0 6"];
    let expected = ["ok 2", "ok 4", "m 3", "v 2040", "v 63497"];
    assert_eq!(answers(&lines, 2048), expected);
    // H summed over its middle is root two and 0 at index 2, and does not depend on 1.
    let lines = [
        "gate 0 H 0",
        "put 1 1",
        "cont 0 0 1 2",
        "lows 1 0 6",
        "on 1",
        "at 1 1",
        "at 1 2",
        "low 2 0 2",
        "cmp 1 2",
    ];
    let expected = [
        "ok 2", "ok 2", "ok 3", "ok 4", "m 2", "v 61457", "v 0", "ok 4", "same",
    ];
    assert_eq!(answers(&lines, 2048), expected);
}

#[test]
fn sets_that_are_free_to_go() {
    assert_eq!(of_h(0), "ok 2");
    // 1 to 0: the node at 2 is there already.
    assert_eq!(of_h(0b10), "ok 3");
    assert_eq!(of_h(0b110), "ok 4");
    // 3 follows 2, and nothing depends on it.
    assert_eq!(of_h(0b1110), "ok 4");
    // 4 and those above it come no closer than 3.
    assert_eq!(of_h(0b1_0000), "ok 2");
    assert_eq!(of_h(0b1_0010), "ok 3");
    assert_eq!(of_h(8_388_608), "ok 2");
    assert_eq!(of_h(16_777_200), "ok 2");
    assert_eq!(of_h(16_777_214), "ok 4");
}

#[test]
fn clashes() {
    // 2 to 1.
    assert_eq!(of_h(0b100), "no 7");
    assert_eq!(of_h(0b1100), "no 7");
    // 3 to 2, though H does not depend on 3.
    assert_eq!(of_h(0b1000), "no 7");
    assert_eq!(of_h(0b1010), "no 7");
    assert_eq!(of_h(16_777_208), "no 7");
    // The unit depends on 0, from which nothing goes.
    assert_eq!(answers(&["unit 0 1", "lows 0 0 2"], 3), ["ok 3", "no 7"]);
}

#[test]
fn sets_out_of_range() {
    for m in [
        1, 3, 7, 16_777_215, 16_777_216, 16_777_217, 16_777_218, 99_999_998,
    ] {
        assert_eq!(of_h(m), "no 4", "{m}");
    }
}

#[test]
fn refused_in_order() {
    let lines = [
        "gate 0 H 0",
        "lows",
        "lows 0 0",
        "lows 0 0 2 2",
        "lows 0 0 ",
        "lows 16 16 01",
        "lows 16 0 -2",
        "Lows 0 0 0",
        "lowss 0 0 0",
        "lows 16 16 1",
        "lows 0 16 1",
        "lows 0 1 1",
        "lows 0 1 16777216",
        "lows 0 1 4",
        "lows 0 0 4",
        "lows 0 0 2",
        "lows 0 0 0",
        "lows 15 0 16",
        "on 15",
    ];
    let expected = [
        "ok 2", "no 1", "no 1", "no 1", "no 1", "no 1", "no 1", "no 1", "no 1", "no 2", "no 2",
        "no 4", "no 4", "no 3", "no 7", "no 8", "ok 2", "ok 2", "m 6",
    ];
    assert_eq!(answers(&lines, 2), expected);
}

/// One index after the other puts in the node of H over 0 and 2 on the way.
#[test]
fn fits_where_single_calls_are_full() {
    let together = ["gate 0 H 0", "lows 0 0 6"];
    let singly = ["gate 0 H 0", "low 0 0 1", "low 0 0 2"];
    assert_eq!(answers(&together, 4), ["ok 2", "ok 4"]);
    assert_eq!(answers(&together, 3), ["ok 2", "no 8"]);
    assert_eq!(answers(&singly, 4), ["ok 2", "ok 3", "no 8"]);
    assert_eq!(answers(&singly, 5), ["ok 2", "ok 3", "ok 5"]);
}

/// H on the qubits 0 and 1 has a node at each of 1, 2, 4 and 5, those at 4 and 5 being H's on qubit
/// 1. A single call puts in the node that it moves and those that lead to it.
#[test]
fn two_qubits() {
    let made = ["gate 0 H 0", "gate 1 H 1", "cont 0 0 1 0"];
    let after =
        |lines: &[&str], capacity| answers(&[&made, lines].concat(), capacity)[3..].to_vec();
    // 1 and 4: every node but the one at 5 is another.
    assert_eq!(after(&["lows 0 0 18", "on 0"], 9), ["ok 9", "m 45"]);
    assert_eq!(after(&["lows 0 0 18", "on 0"], 8), ["no 8", "m 54"]);
    assert_eq!(after(&["low 0 0 1", "low 0 0 4"], 10), ["ok 7", "ok 10"]);
    assert_eq!(after(&["low 0 0 4", "low 0 0 1"], 9), ["ok 9", "no 8"]);
    assert_eq!(after(&["lows 0 0 54", "on 0"], 10), ["ok 10", "m 27"]);
    let singly = ["low 0 0 1", "low 0 0 2", "low 0 0 4", "low 0 0 5"];
    assert_eq!(after(&singly, 16), ["ok 7", "ok 9", "ok 12", "ok 16"]);
    assert_eq!(after(&singly, 15), ["ok 7", "ok 9", "ok 12", "no 8"]);
}

#[test]
fn mixed_with_low_and_collect() {
    let lines = [
        "gate 0 H 0",
        "lows 1 0 6",
        "drop 0",
        "collect",
        "lows 1 1 6",
        "on 1",
        "gate 0 H 0",
        "low 2 0 1",
        "lows 2 2 4",
        "cmp 1 2",
        "drop 0",
        "collect",
        "on 1",
    ];
    let expected = [
        "ok 2", "ok 4", "ok 4", "ok 2", "no 7", "m 3", "ok 4", "ok 5", "ok 5", "same", "ok 5",
        "ok 2", "m 3",
    ];
    assert_eq!(answers(&lines, 5), expected);
}

/// X is 0 1 where its lower index is 0, and 1 0 where it is 1: low before high, and the top last.
#[test]
fn order_put_in() {
    let run = session(b"gate\t0\tX\t0\nlows\t0\t0\t6\n", 6, 32);
    let expected = [
        Tensor::from_fn(0b10, |v| v >> 1),
        Tensor::from_fn(0b10, |v| 1 - (v >> 1)),
        Tensor::from_fn(0b11, |v| v & 1 ^ v >> 1),
    ];
    assert_eq!(run.tally.set.in_order()[3..], expected);
    assert_eq!(run.tally.registers[0].as_ref(), Some(&expected[2]));
}

/// A set of one index is `low` of it: the same answers, nodes and registers.
#[test]
fn one_index_alone() {
    for made in [
        "put 0 7",
        "gate 0 H 0",
        "gate 0 CX 2 0",
        "gate 0 SW 3 2",
        "unit 0 2",
        "gate 0 T 1\ngate 1 H 0\ncont 0 0 1 0",
    ] {
        for k in 1..INDICES {
            let of = |call: String| {
                let text = format!("{made}\n{call}").replace(' ', "\t");
                session(text.as_bytes(), 2048, 4096)
            };
            let low = of(format!("low 2 0 {k}"));
            let lows = of(format!("lows 2 0 {}", 1 << k));
            assert_eq!(low.output, lows.output, "{made}, {k}");
            assert_eq!(low.tally.set.in_order(), lows.tally.set.in_order());
            assert_eq!(low.tally.registers, lows.tally.registers);
        }
    }
}

/// Each index of the set has what the one before it is given, every other one what it is given
/// itself.
#[test]
fn values_by_assignments() {
    let t = Tensor::from_fn(0b110_1100, |v| v + 1);
    for m in [
        0,
        0b100,
        0b1100,
        0b10_0000,
        0b110_0000,
        0b110_1100,
        0b11_1110,
        0b1001_0010,
    ] {
        let lowered = t.lowered(m);
        for v in 0..128 {
            let given = |k: u32| v >> if m >> k & 1 == 1 { k - 1 } else { k } & 1;
            let looked_at = (0..7).fold(0, |x, k| x | given(k) << k);
            assert_eq!(lowered.at(v), t.at(looked_at), "{m}, {v}");
        }
    }
    assert_eq!(t.lowered(0b110_1100).mask(), 0b11_0110);
    assert_eq!(t.lowered(0b1100).mask(), 0b110_0110);
}
