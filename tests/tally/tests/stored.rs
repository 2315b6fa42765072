//! The tally against the answers that stand beside the engine's programs, which were calculated
//! without engine and tally.

use std::path::PathBuf;
use tally::session::session;
use tally::text::{fields, number};
use tally::verdict::verdict;

fn stored(program: &str, name: &str) -> Vec<u8> {
    let crates = PathBuf::from(env!("CARGO_MANIFEST_DIR")).join("../../crates");
    let path = crates.join(program).join(name);
    std::fs::read(&path).unwrap_or_else(|e| panic!("{}: {e}", path.display()))
}

/// The parts that a byte 0 ends.
fn parts(input: &[u8]) -> Vec<&[u8]> {
    let ended = input.strip_suffix(&[0]).expect("a byte 0 ends each part");
    ended.split(|&b| b == 0).collect()
}

/// A part's first line and the rest.
fn header(part: &[u8]) -> Option<(&[u8], &[u8])> {
    let end = part.iter().position(|&b| b == b'\n')?;
    Some((&part[..end], &part[end + 1..]))
}

fn size(field: &[u8]) -> Option<usize> {
    number(field).map(|n| n as usize)
}

fn assert_same(got: &[u8], expected: &[u8]) {
    let lines = |b: &[u8]| {
        String::from_utf8_lossy(b)
            .lines()
            .map(str::to_string)
            .collect::<Vec<_>>()
    };
    let (got_lines, expected_lines) = (lines(got), lines(expected));
    for (i, (g, e)) in got_lines.iter().zip(&expected_lines).enumerate() {
        assert_eq!(g, e, "line {}", i + 1);
    }
    assert_eq!(got, expected);
}

#[test]
fn program_session() {
    let run = session(&stored("session", "stdin"), 2048, 1 << 20);
    assert_same(&run.output, &stored("session", "stdout"));
}

#[test]
fn program_verdict() {
    let answer = verdict(&stored("verdict", "stdin"), 2048, 32);
    assert_same(&answer.output, &stored("verdict", "stdout"));
}

/// `crates/script`: the capacity in nodes and the length of the output, then the session.
#[test]
fn program_script() {
    let input = stored("script", "stdin");
    let output: Vec<u8> = parts(&input).into_iter().flat_map(script).collect();
    assert_eq!(parts(&input).len(), 95);
    assert_same(&output, &stored("script", "stdout"));
}

/// What the program writes for one part: it holds texts of 8192 bytes, 2048 nodes and 4096 bytes of
/// output.
fn script(part: &[u8]) -> Vec<u8> {
    if part.len() > 8192 {
        return b"too long\n".to_vec();
    }
    let sizes = header(part).and_then(|(line, _)| match fields(line)[..] {
        [capacity, room] => size(capacity).zip(size(room)),
        _ => None,
    });
    match sizes {
        Some((capacity @ ..=2048, room @ ..=4096)) => {
            let (_, text) = header(part).expect("it has sizes");
            answers(text, capacity, room)
        }
        _ => b"bad header\n".to_vec(),
    }
}

/// A session's answers and a line: `=`, code, lines, bytes and count.
fn answers(text: &[u8], capacity: usize, room: usize) -> Vec<u8> {
    let run = session(text, capacity, room);
    let (lines, bytes) = (run.answers.len(), run.output.len());
    let count = run.tally.set.count();
    let result = format!("=\t{}\t{lines}\t{bytes}\t{count}\n", run.code);
    [run.output, result.into_bytes()].concat()
}

/// `crates/cases`: the capacity in nodes, then the verdict's text.
#[test]
fn program_cases() {
    let input = stored("cases", "stdin");
    let judged = |part| {
        let (line, text) = header(part).expect("a header");
        verdict(text, size(line).expect("a capacity"), 32).output
    };
    let output: Vec<u8> = parts(&input).into_iter().flat_map(judged).collect();
    assert_eq!(parts(&input).len(), 105);
    assert_same(&output, &stored("cases", "stdout"));
}
