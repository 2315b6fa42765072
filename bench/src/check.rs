//! Agreement of the engines: on random lists, at small capacities, on damaged texts, and on the stored verdicts.

use crate::cases::{self, Variant};
use crate::judges::{Judges, CAPACITY};
use crate::lists::FAMILIES;
use crate::random::Random;

/// Stops the program where two engines answer differently.
fn agree(judges: &mut Judges, text: &[u8], capacity: usize) -> Vec<u8> {
    let mut answers = judges
        .diagrams
        .iter_mut()
        .map(|j| (j.name(), j.judge(text, capacity)));
    let (first, expected) = answers.next().expect("there is an engine");
    for (name, answer) in answers {
        assert_answer(text, capacity, first, &expected, name, &answer);
    }
    if !expected.starts_with(b"no\t8\t") {
        let answer = judges.dense.verdict(text).print();
        assert_answer(text, capacity, first, &expected, "dense", &answer);
    }
    expected
}

fn assert_answer(text: &[u8], capacity: usize, first: &str, x: &[u8], second: &str, y: &[u8]) {
    assert!(
        x == y,
        "capacity {capacity}: {first} answers {}, {second} {}, on\n{}",
        x.escape_ascii(),
        y.escape_ascii(),
        text.escape_ascii()
    );
}

/// One answer of all engines.
pub fn one(judges: &mut Judges, text: &[u8]) -> Vec<u8> {
    agree(judges, text, CAPACITY)
}

fn damage(text: &mut Vec<u8>, random: &mut Random) {
    let at = random.below(text.len());
    match random.below(3) {
        0 => text[at] = random.pick(b"\t\n=0189XSDlines \0\xff"),
        1 => text.insert(at, random.pick(b"\t\n=0189XCW")),
        _ => {
            text.remove(at);
        }
    }
}

/// So many random lists of each family, each as it is, at a small capacity and damaged. The answer counts how many
/// verdicts were `same`, `factor`, `differ`, full, and refused otherwise.
pub fn random(judges: &mut Judges, lists: usize) -> [usize; 5] {
    let mut seen = [0; 5];
    let mut random = Random::new(1);
    for i in 0..lists * FAMILIES.len() {
        let family = FAMILIES[i % FAMILIES.len()];
        let n = 2 + random.below(if i % 16 == 0 { 7 } else { 5 }) as u8;
        let gates = 6 + random.below(60);
        let variant = random.pick(&[Variant::Same, Variant::Factor, Variant::Differ]);
        let mut text = cases::case(family, n, gates, variant, i as u64).text;
        let expected: &[u8] = match variant {
            Variant::Same => b"same",
            Variant::Factor => b"factor",
            Variant::Differ => b"differ",
        };
        let answer = agree(judges, &text, CAPACITY);
        assert!(answer.starts_with(expected), "{}", text.escape_ascii());
        note(&mut seen, &answer);
        note(&mut seen, &agree(judges, &text, random.below(300)));
        damage(&mut text, &mut random);
        note(&mut seen, &agree(judges, &text, CAPACITY));
    }
    seen
}

fn note(seen: &mut [usize; 5], answer: &[u8]) {
    let kinds: [&[u8]; 4] = [b"same", b"factor", b"differ", b"no\t8\t"];
    let kind = kinds.iter().position(|k| answer.starts_with(k));
    seen[kind.unwrap_or(4)] += 1;
}

/// The stored verdicts: texts that end in a byte 0, each with its capacity in a line before it. The answer is their
/// number.
pub fn stored(judges: &mut Judges, stdin: &[u8], stdout: &[u8]) -> usize {
    let mut answers = Vec::new();
    let mut count = 0;
    for part in stdin.split(|&b| b == 0).filter(|p| !p.is_empty()) {
        let end = part.iter().position(|&b| b == b'\n').expect("a capacity");
        let capacity = std::str::from_utf8(&part[..end]).expect("digits");
        let capacity: usize = capacity.parse().expect("a number");
        answers.extend(agree(judges, &part[end + 1..], capacity));
        count += 1;
    }
    assert!(answers == stdout, "{}", answers.escape_ascii());
    count
}
