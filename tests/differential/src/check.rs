//! The engine against the tally, on one case.

use crate::case::{Case, Kind};
use crate::decode;
use crate::engine::{Edge, Engine, Session};
use crate::memory::Memory;
use std::collections::HashSet;
use tally::session::{session, Run, Tally};
use tally::tensor::Tensor;
use tally::verdict::{read, verdict, Ruling};
use tally::{capacity, matrix, text};

/// What the tally says of a case.
pub enum Expected {
    Session(Box<Run>),
    Verdict(Option<Ruling>),
}

/// What the tally says, or how the engine differs from it.
pub fn check(engine: &mut dyn Engine, case: &Case) -> Result<Expected, String> {
    let mut memory = Memory::new(&case.sizes);
    if let Some(earlier) = &case.earlier {
        run(engine, case.kind, earlier, &mut memory);
    }
    match case.kind {
        Kind::Session if case.stepwise => steps(engine, case, &mut memory),
        Kind::Session => {
            let room = case.sizes.out_bytes;
            let expected = session(&case.text, capacity(case.sizes.store_bytes), room);
            one_session(engine, &case.text, &mut memory, &expected)?;
            Ok(Expected::Session(Box::new(expected)))
        }
        Kind::Verdict => one_verdict(engine, case, &mut memory),
    }
}

/// For the store and the cache that it leaves.
fn run(engine: &mut dyn Engine, kind: Kind, text: &[u8], memory: &mut Memory) {
    let (store, cache) = (memory.store.part(), memory.cache.part());
    let out = memory.out.part();
    match kind {
        Kind::Session => drop(engine.session(text, store, cache, out)),
        Kind::Verdict => drop(engine.verdict(text, store, cache, out)),
    }
}

/// "all of this holds at the start and after each line answered": the session of the first i lines,
/// for every i.
fn steps(engine: &mut dyn Engine, case: &Case, memory: &mut Memory) -> Result<Expected, String> {
    let mut expected = Run::new(capacity(case.sizes.store_bytes), case.sizes.out_bytes);
    one_session(engine, b"", memory, &expected)?;
    let mut end = 0;
    for line in text::lines(&case.text) {
        end = (end + line.len() + 1).min(case.text.len());
        expected.line(line);
        one_session(engine, &case.text[..end], memory, &expected)
            .map_err(|why| format!("after {} lines: {why}", expected.answers.len()))?;
    }
    Ok(Expected::Session(Box::new(expected)))
}

fn one_session(
    engine: &mut dyn Engine,
    text: &[u8],
    memory: &mut Memory,
    expected: &Run,
) -> Result<(), String> {
    memory.renew_output();
    let (store, cache) = (memory.store.part(), memory.cache.part());
    let got = engine.session(text, store, cache, memory.out.part());
    let tally = &expected.tally;
    output(memory, &expected.output, got.bytes)
        .and_then(|()| number("code", got.code, expected.code))
        .and_then(|()| number("lines", got.lines, expected.answers.len() as u64))
        .and_then(|()| number("count", got.count, tally.set.count() as u64))
        .and_then(|()| nodes(memory.store.held(), tally))
        .and_then(|tensors| registers(&got, &tensors, tally))
        .map_err(|why| format!("{why}\nengine: {got:?}\ntally: {}", shown(expected)))
}

fn shown(run: &Run) -> String {
    let filled = |i: &usize| run.tally.registers[*i].is_some();
    format!(
        "code {}, lines {}, bytes {}, count {}, filled registers {:?}",
        run.code,
        run.answers.len(),
        run.output.len(),
        run.tally.set.count(),
        (0..16).filter(filled).collect::<Vec<_>>()
    )
}

fn number(what: &str, got: u64, expected: u64) -> Result<(), String> {
    if got == expected {
        Ok(())
    } else {
        Err(format!("{what}: engine {got}, tally {expected}"))
    }
}

/// Every byte of the output, "Output bytes after those written are untouched", and nothing written
/// beside the lent memory.
fn output(memory: &Memory, written: &[u8], bytes: u64) -> Result<(), String> {
    number("bytes", bytes, written.len() as u64)?;
    let (got, rest) = memory.out.held().split_at(written.len());
    if got != written {
        let (got, written) = (got.escape_ascii(), written.escape_ascii());
        return Err(format!("output: engine {got}\ntally {written}"));
    }
    if rest != &memory.out_before[written.len()..] {
        return Err("output bytes after those written are changed".to_string());
    }
    if !memory.marks_stand() {
        return Err("something is written beside the lent memory".to_string());
    }
    Ok(())
}

/// "No node's tensor is a multiple of another node's. The tensors of the nodes from 1 up are
/// exactly those in the tally's set." And "Nodes are numbered from 1 in the order put in".
fn nodes(store: &[u8], tally: &Tally) -> Result<Vec<Tensor>, String> {
    let tensors = decode::tensors(store, tally.set.count())?;
    // Each is normal, so multiples would be equal.
    let mut seen = HashSet::new();
    for (n, t) in tensors.iter().enumerate().skip(1) {
        if !seen.insert(t) {
            return Err(format!("node {n} is a multiple of another: {}", brief(t)));
        }
        if !tally.set.has(t) {
            return Err(format!("node {n} is not in the tally's set: {}", brief(t)));
        }
    }
    // As many, so none is missing.
    if tensors[1..] != *tally.set.in_order() {
        return Err("the nodes are not in the order put in".to_string());
    }
    Ok(tensors)
}

/// "Each filled register's weight times its node's tensor is the tensor that the tally holds
/// there", "Two filled registers have the same weight and node exactly when the tensors that the
/// tally holds there agree at every assignment."
fn registers(got: &Session, tensors: &[Tensor], tally: &Tally) -> Result<(), String> {
    for (i, (register, expected)) in got.registers.iter().zip(&tally.registers).enumerate() {
        let held = register.map(|e| value(e, tensors)).transpose();
        let held = held.map_err(|why| format!("register {i}: {why}"))?;
        if held != *expected {
            let (held, expected) = (brief(&held), brief(expected));
            return Err(format!("register {i}: engine {held}\ntally {expected}"));
        }
        for j in 0..i {
            if (got.registers[j] == *register) != (tally.registers[j] == *expected) {
                return Err(format!(
                    "registers {j} and {i}: equal tensors have equal edges"
                ));
            }
        }
    }
    Ok(())
}

/// The start of what may be a large table.
fn brief(shown: &impl std::fmt::Debug) -> String {
    format!("{shown:?}").chars().take(400).collect()
}

fn value(e: Edge, tensors: &[Tensor]) -> Result<Tensor, &'static str> {
    let weight = u32::try_from(e.weight).unwrap_or(u32::MAX);
    decode::edge((weight, e.node as usize), tensors)
}

fn one_verdict(
    engine: &mut dyn Engine,
    case: &Case,
    memory: &mut Memory,
) -> Result<Expected, String> {
    memory.renew_output();
    let (store, cache) = (memory.store.part(), memory.cache.part());
    let got = engine.verdict(&case.text, store, cache, memory.out.part());
    let room = case.sizes.out_bytes;
    let expected = verdict(&case.text, capacity(case.sizes.store_bytes), room);
    output(memory, &expected.output, got.bytes)
        .and_then(|()| number("code", got.code, expected.code))
        .and_then(|()| by_matrices(&case.text, expected.ruling.as_ref()))
        .map_err(|why| {
            format!(
                "{why}\nengine: {got:?}\ntally: {}, {:?}",
                expected.code, expected.ruling
            )
        })?;
    Ok(Expected::Verdict(expected.ruling))
}

/// A verdict that is not `no` is also the comparison of the lists' matrices.
fn by_matrices(text: &[u8], ruling: Option<&Ruling>) -> Result<(), String> {
    match (ruling, read(text)) {
        (None | Some(Ruling::No(_)), _) => Ok(()),
        (Some(ruling), Ok(lists)) if *ruling == matrix::compare(&lists) => Ok(()),
        (Some(ruling), _) => Err(format!("by matrices it is not {ruling:?}")),
    }
}
