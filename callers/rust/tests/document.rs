//! What document 01 prints and marks: the session shown whole, and the cases d to k. Document 02's masks and lowered
//! sets.

use jorehyi::{judge, session, Answer, Edge};

const PRINTED_LINES: &[u8] = include_bytes!("../../../crates/session/stdin");
const PRINTED_ANSWERS: &[u8] = include_bytes!("../../../crates/session/stdout");

/// The answers to a session at a capacity, with room for all of them.
fn answers(text: &[u8], capacity: usize) -> Vec<u8> {
    let mut store = vec![0; 16 * capacity];
    let mut cache = [0; 64];
    let mut out = [0; 256];
    let result = session(text, &mut store, &mut cache, &mut out);
    assert_eq!(result.code, 0);
    out[..result.bytes as usize].to_vec()
}

#[test]
fn the_printed_session() {
    let mut store = vec![0; 2048 * 16];
    let mut cache = vec![0; 16_384];
    let mut out = [0xa5; 256];
    let result = session(PRINTED_LINES, &mut store, &mut cache, &mut out);

    let written = result.bytes as usize;
    assert_eq!(&out[..written], PRINTED_ANSWERS);
    assert!(out[written..].iter().all(|&b| b == 0xa5));
    assert_eq!((result.code, result.lines, result.count), (0, 8, 2));

    // Register 1 is twice H on qubit 0, whose first value is 2h, root two; H's own node is put in after its high
    // part's.
    let mut registers = [None; 16];
    registers[1] = Some(Edge {
        weight: 61_457,
        node: 2,
    });
    assert_eq!(result.registers, registers);
}

#[test]
fn the_unit_needs_three_nodes() {
    assert_eq!(answers(b"unit\t0\t1\n", 3), b"ok\t3\n");
    assert_eq!(answers(b"unit\t0\t1\n", 2), b"no\t8\n");
}

#[test]
fn h_needs_two_nodes() {
    assert_eq!(answers(b"gate\t0\tH\t0\n", 2), b"ok\t2\n");
    assert_eq!(answers(b"gate\t0\tH\t0\n", 1), b"no\t8\n");
}

#[test]
fn the_marked_verdicts() {
    assert_eq!(judge(b"lines\t1\nH\t0\nH\t0\n=\n", 2048), Answer::Same);
    assert_eq!(
        judge(b"lines\t1\nT\t0\nT\t0\n=\nS\t0\n", 2048),
        Answer::Same
    );
    assert_eq!(
        judge(b"lines\t1\nX\t0\nZ\t0\nX\t0\n=\nZ\t0\n", 2048),
        Answer::Factor(65_536)
    );
    assert_eq!(judge(b"lines\t1\nS\t0\n=\nZ\t0\n", 2048), Answer::Differ);
}

/// H on qubit 0 has indices 1 and 2; the unit has every qubit's input and middle, also where a
/// collection has moved its nodes.
#[test]
fn masks() {
    let text =
        b"put\t0\t7\non\t0\ngate\t0\tH\t0\non\t0\nunit\t1\t8\non\t1\ndrop\t0\ncollect\non\t1\n";
    let expected = b"ok\t0\nm\t0\nok\t2\nm\t6\nok\t26\nm\t7190235\nok\t26\nok\t24\nm\t7190235\n";
    assert_eq!(answers(text, 2048), expected);
    let refused = b"on\t0\t0\non\t16\non\t0\n";
    assert_eq!(answers(refused, 2048), b"no\t1\nno\t2\nno\t3\n");
}

/// H on qubit 0 goes from the indices 1 and 2 to 0 and 1, as by two single calls, also after a
/// collection.
#[test]
fn lowered_sets() {
    let text = b"gate\t0\tH\t0\nlows\t1\t0\t6\non\t1\nlow\t2\t0\t1\nlow\t2\t2\t2\ncmp\t1\t2\n";
    let expected = b"ok\t2\nok\t4\nm\t3\nok\t5\nok\t5\nsame\n";
    assert_eq!(answers(text, 2048), expected);
    let text = b"gate\t0\tH\t0\nlows\t1\t0\t6\ndrop\t0\ncollect\ngate\t0\tH\t0\nlows\t0\t0\t6\ncmp\t0\t1\n";
    let expected = b"ok\t2\nok\t4\nok\t4\nok\t2\nok\t4\nok\t4\nsame\n";
    assert_eq!(answers(text, 2048), expected);
}

#[test]
fn four_nodes_lower_a_set_but_not_its_indices_one_by_one() {
    let together = b"gate\t0\tH\t0\nlows\t0\t0\t6\n";
    assert_eq!(answers(together, 4), b"ok\t2\nok\t4\n");
    let singly = b"gate\t0\tH\t0\nlow\t0\t0\t1\nlow\t0\t0\t2\n";
    assert_eq!(answers(singly, 4), b"ok\t2\nok\t3\nno\t8\n");
}

#[test]
fn refused_sets() {
    let empty = b"lows\t0\t0\nlows\t16\t0\t1\nlows\t0\t0\t1\nlows\t0\t0\t16777216\nlows\t0\t0\t2\n";
    assert_eq!(answers(empty, 2), b"no\t1\nno\t2\nno\t4\nno\t4\nno\t3\n");
    let filled = b"gate\t0\tH\t0\nlows\t0\t0\t4\nlows\t0\t0\t2\nlows\t0\t0\t0\n";
    assert_eq!(answers(filled, 2), b"ok\t2\nno\t7\nno\t8\nok\t2\n");
}
