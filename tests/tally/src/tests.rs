//! What the documents state outright, and small cases worked out by hand.

use crate::call::Answer;
use crate::field::{inverse, power, times, H, I, MODULUS, ROOT, ROOT_TWO};
use crate::gate::{unit, Gate, Name};
use crate::session::{session, Run};
use crate::tensor::{Tensor, INDICES};
use crate::verdict::{verdict, Lists, Ruling};
use crate::{capacity, matrix, rules, set::Set, text};

mod lows;

/// A session's answers, tabs written as spaces.
fn answers(lines: &[&str], capacity: usize) -> Vec<String> {
    let text = lines.join("\n").replace(' ', "\t");
    let output = session(text.as_bytes(), capacity, 4096).output;
    let shown = String::from_utf8(output).unwrap().replace('\t', " ");
    shown.lines().map(str::to_string).collect()
}

fn judged(lines: &[&str], capacity: usize) -> String {
    let text = lines.join("\n").replace(' ', "\t");
    let output = verdict(text.as_bytes(), capacity, 32).output;
    let shown = String::from_utf8(output).unwrap().replace('\t', " ");
    shown.trim_end().to_string()
}

#[test]
fn field() {
    assert!((2..=256).all(|d| !MODULUS.is_multiple_of(d)));
    assert_eq!(times(I, I), 65_536);
    assert_eq!(times(ROOT_TWO, ROOT_TWO), 2);
    assert_eq!(times(ROOT_TWO, H), 1);
    assert_eq!(power(ROOT, 4), 65_536);
    assert!((1..MODULUS).all(|w| times(w, inverse(w)) == 1));
}

#[test]
fn printed_session() {
    let lines = [
        "gate 0 H 0",
        "add 1 0 0",
        "cmp 1 0",
        "at 0 6",
        "low 2 0 2",
        "drop 0",
        "collect",
        "cmp 0 1",
    ];
    let printed = [
        "ok 2", "ok 2", "factor 2", "v 2040", "no 7", "ok 2", "ok 2", "no 3",
    ];
    assert_eq!(answers(&lines, 2048), printed);
}

#[test]
fn marked_capacities() {
    assert_eq!(answers(&["unit 0 1"], 3), ["ok 3"]);
    assert_eq!(answers(&["unit 0 1"], 2), ["no 8"]);
    assert_eq!(answers(&["gate 0 H 0"], 2), ["ok 2"]);
    assert_eq!(answers(&["gate 0 H 0"], 1), ["no 8"]);
}

#[test]
fn marked_verdicts() {
    assert_eq!(judged(&["lines 1", "H 0", "H 0", "="], 2048), "same");
    assert_eq!(judged(&["lines 1", "T 0", "T 0", "=", "S 0"], 2048), "same");
    let negated = ["lines 1", "X 0", "Z 0", "X 0", "=", "Z 0"];
    assert_eq!(judged(&negated, 2048), "factor 65536");
    assert_eq!(judged(&["lines 1", "S 0", "=", "Z 0"], 2048), "differ");
}

#[test]
fn verdict_refusals() {
    assert_eq!(judged(&[], 0), "no 10 1");
    assert_eq!(judged(&["lines 01", "="], 0), "no 10 1");
    assert_eq!(judged(&["lines 1", "H 10"], 0), "no 11 2");
    assert_eq!(judged(&["lines 1", "H 1"], 0), "no 12 2");
    assert_eq!(judged(&["lines 2", "CX 2 2"], 0), "no 12 2");
    assert_eq!(judged(&["lines 2", "CX 1 1"], 0), "no 13 2");
    assert_eq!(judged(&["lines 2", "=", "=", "CX 1 1"], 0), "no 14 3");
    assert_eq!(judged(&["lines 2", "H 0"], 0), "no 14 3");
    assert_eq!(judged(&["lines 1", "="], 2), "no 8 1");
    assert_eq!(verdict(b"", 0, 31).code, 9);
}

#[test]
fn order_of_checks() {
    let lines = [
        "gate 16 Q 07",
        "gate 16 Q 9",
        "gate 0 H 9 9",
        "gate 0 CX 9 9",
        "gate 0 CX 1 1",
        "cont 0 3 4 16777216",
        "cont 0 3 4 1",
        "low 0 0 1",
        "gate 0 X 0",
        "low 0 0 2",
        "put 0 065537",
        "put 0 65537",
    ];
    let expected = [
        "no 1", "no 2", "no 5", "no 4", "no 6", "no 4", "no 3", "no 3", "ok 3", "no 7", "no 1",
        "no 4",
    ];
    assert_eq!(answers(&lines, 9), expected);
}

/// The answer to `on 0` after these lines.
fn mask(lines: &[&str]) -> String {
    let mut answers = answers(&[lines, &["on 0"]].concat(), 2048);
    answers.pop().unwrap()
}

#[test]
fn masks_of_what_is_made() {
    assert_eq!(mask(&["put 0 0"]), "m 0");
    assert_eq!(mask(&["put 0 65536"]), "m 0");
    assert_eq!(mask(&["gate 0 H 0"]), "m 6");
    assert_eq!(mask(&["gate 0 Z 7"]), "m 12582912");
    assert_eq!(mask(&["gate 0 CX 2 0"]), "m 390");
    assert_eq!(mask(&["unit 0 2"]), "m 27");
    assert_eq!(mask(&["unit 0 8"]), "m 7190235");
}

#[test]
fn masks_of_what_is_left() {
    assert_eq!(mask(&["gate 0 H 0", "low 0 0 1"]), "m 5");
    assert_eq!(mask(&["gate 0 H 0", "low 0 0 1", "low 0 0 2"]), "m 3");
    // Refused by 7, so H as it was.
    assert_eq!(mask(&["gate 0 H 0", "low 0 0 2"]), "m 6");
    // Summed over the fresh index: root two and 0; 1 and -1, whose square is 1; 1 and 1.
    let over_fresh = |gate| [gate, "put 1 1", "cont 0 0 1 4"];
    assert_eq!(mask(&over_fresh("gate 0 H 0")), "m 2");
    assert_eq!(mask(&over_fresh("gate 0 Z 0")), "m 2");
    let squared = [&over_fresh("gate 0 Z 0")[..], &["cont 0 0 0 0"]].concat();
    assert_eq!(mask(&squared), "m 0");
    assert_eq!(mask(&over_fresh("gate 0 X 0")), "m 0");
    // -H + H
    let zero = ["gate 0 H 0", "put 1 65536", "cont 1 0 1 0", "add 0 1 0"];
    assert_eq!(mask(&zero), "m 0");
    assert_eq!(mask(&["gate 0 H 0", "gate 1 H 1", "add 0 0 1"]), "m 54");
    assert_eq!(mask(&["gate 0 H 0", "gate 1 H 0", "collect"]), "m 6");
    assert_eq!(mask(&["gate 0 H 0", "drop 0", "collect"]), "no 3");
}

/// The unit has each qubit's input and middle, the gates its middle and fresh index.
#[test]
fn mask_of_every_index() {
    let mut lines = vec!["unit 0 8"];
    for gate in [
        "gate 1 CX 0 1",
        "gate 1 CX 2 3",
        "gate 1 CX 4 5",
        "gate 1 CX 6 7",
    ] {
        lines.extend([gate, "cont 0 1 0 0"]);
    }
    assert_eq!(mask(&lines), "m 16777215");
}

#[test]
fn masks_refused() {
    let lines = [
        "put 0 1", "on", "on 0 0", "on 00", "on 16 0", "on 16", "on 1", "On 0", "on 0",
    ];
    let expected = [
        "ok 0", "no 1", "no 1", "no 1", "no 1", "no 2", "no 3", "no 1", "m 0",
    ];
    assert_eq!(answers(&lines, 0), expected);
}

#[test]
fn splitting() {
    assert_eq!(text::lines(b"").len(), 0);
    assert_eq!(text::lines(b"\n"), [b""]);
    assert_eq!(text::lines(b"a"), text::lines(b"a\n"));
    assert_eq!(text::lines(b"a\n\n").len(), 2);
}

#[test]
fn stops_with_nine() {
    let run: Run = session(b"put\t0\t1\nat\t0\t0\n", 0, 20);
    assert_eq!((run.code, run.answers.len()), (9, 1));
    assert_eq!(run.answers, [Answer::Ok(0)]);
    assert_eq!(session(b"", 0, 0).code, 0);
    assert_eq!(session(b"\n", 0, 15).code, 9);
}

#[test]
fn tables_are_canonical() {
    let wide = Tensor::from_fn(0b1011, |v| v >> 1 & 1);
    assert_eq!(wide.support(), 0b10);
    assert_eq!(wide, Tensor::from_fn(0b10, |v| v >> 1));
    assert_eq!(wide.plus(&wide.scaled(65_536)), Tensor::constant(0));
    let t = Tensor::from_fn(0b1110, |v| v + 1);
    assert!((0..32).all(|v| t.at(v) == (v & 0b1110) + 1));
}

/// A bit for each index at which a change alone changes a value.
#[test]
fn masks_by_assignments() {
    let t = Tensor::from_fn(0b1011, |v| v & 1 | v >> 3);
    for k in 0..INDICES {
        let differs = (0..16).any(|v| t.at(v) != t.at(v ^ 1 << k));
        assert_eq!(t.mask() >> k & 1 == 1, differs, "index {k}");
    }
    assert_eq!(t.mask(), 0b1001);
}

#[test]
fn constants_count_the_set() {
    let one = Tensor::constant(1);
    let doubled = rules::cont(&mut Set::default(), &one, &one, 0b111);
    assert_eq!(doubled, Tensor::constant(8));
}

/// `unit` needs one node at the input and two at the middle of each qubit.
#[test]
fn unit_nodes() {
    for n in 1..=8 {
        let mut set = Set::default();
        rules::build(&mut set, &unit(n));
        assert_eq!(set.count(), 3 * n as usize);
    }
}

#[test]
fn matrices() {
    let gate = |name, qubits: &[u32]| Gate {
        name,
        qubits: qubits.to_vec(),
    };
    let swap = Lists {
        n: 2,
        first: vec![gate(Name::SW, &[0, 1])],
        second: [[0, 1], [1, 0], [0, 1]]
            .map(|q| gate(Name::CX, &q))
            .to_vec(),
    };
    assert_eq!(matrix::compare(&swap), Ruling::Same);
    let y = Lists {
        n: 1,
        first: vec![gate(Name::Y, &[0])],
        second: vec![gate(Name::Z, &[0]), gate(Name::X, &[0])],
    };
    assert_eq!(matrix::compare(&y), Ruling::Factor(256));
}

#[test]
fn capacities() {
    assert_eq!([0, 15, 16, 31].map(capacity), [0, 0, 1, 1]);
    assert_eq!(capacity(16 * 65_536), 65_535);
}
