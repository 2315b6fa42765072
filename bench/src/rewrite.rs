//! Rewritings of a list: equivalent ones, and ones with a wrong gate.

use crate::lists::{gate, pair, single};
use crate::random::Random;
use crate::text::{Gate, Kind};

fn inverse(g: Gate) -> Gate {
    let kind = match g.kind {
        Kind::S => Kind::Sd,
        Kind::Sd => Kind::S,
        Kind::T => Kind::Td,
        Kind::Td => Kind::T,
        kind => kind,
    };
    Gate { kind, ..g }
}

/// Other gates for one gate, of the kinds that are allowed.
fn replaced(g: Gate, kinds: &[Kind]) -> Vec<Gate> {
    use Kind::*;
    let Gate { kind, a, b } = g;
    let steps = match kind {
        Z => vec![single(S, a), single(S, a)],
        S => vec![single(T, a), single(T, a)],
        Sd => vec![single(Z, a), single(S, a)],
        X => vec![single(H, a), single(Z, a), single(H, a)],
        Cx => vec![single(H, b), pair(Cz, a, b), single(H, b)],
        Cz => vec![pair(Cz, b, a)],
        Sw => vec![pair(Cx, a, b), pair(Cx, b, a), pair(Cx, a, b)],
        Y | H | T | Td => vec![g],
    };
    if steps.iter().all(|s| kinds.contains(&s.kind)) {
        steps
    } else {
        vec![g]
    }
}

fn apart(g: Gate, h: Gate) -> bool {
    g.a != h.a && g.a != h.b && g.b != h.a && g.b != h.b
}

/// An equivalent list of `length` gates: some gates are replaced, pairs of a gate and its inverse are put in, and
/// neighbours on different qubits change places. It may be one gate short where no gate stands for two.
pub fn equivalent(
    list: &[Gate],
    n: u8,
    kinds: &[Kind],
    length: usize,
    random: &mut Random,
) -> Vec<Gate> {
    let mut spare = length.saturating_sub(list.len()) / 2;
    let mut out = Vec::with_capacity(length);
    for &g in list {
        let steps = replaced(g, kinds);
        if steps.len() - 1 <= spare && random.below(8) == 0 {
            spare -= steps.len() - 1;
            out.extend(steps);
        } else {
            out.push(g);
        }
    }
    while out.len() + 2 <= length {
        let at = random.below(out.len() + 1);
        let g = gate(kinds, n, random);
        out.splice(at..at, [g, inverse(g)]);
    }
    if out.len() < length {
        let two = |g: &Gate| replaced(*g, kinds).len() == 2;
        if let Some(i) = out.iter().position(two) {
            out.splice(i..=i, replaced(out[i], kinds));
        }
    }
    commute(&mut out, random);
    out
}

fn commute(list: &mut [Gate], random: &mut Random) {
    for i in 1..list.len() {
        if apart(list[i - 1], list[i]) && random.below(2) == 0 {
            list.swap(i - 1, i);
        }
    }
}

/// The list with four gates more whose product is -1 or i.
pub fn with_factor(list: &[Gate], n: u8, random: &mut Random) -> Vec<Gate> {
    let q = random.below(usize::from(n)) as u8;
    let kind = random.pick(&[Kind::Z, Kind::S]);
    let steps = [kind, Kind::X, kind, Kind::X].map(|k| single(k, q));
    inserted(list, &steps, random)
}

/// The list with one gate more, which is no multiple of the unit: no multiple of the list's matrix results.
pub fn wrong(list: &[Gate], n: u8, random: &mut Random) -> Vec<Gate> {
    let kind = random.pick(&[Kind::X, Kind::Y, Kind::Z, Kind::S, Kind::T]);
    let q = random.below(usize::from(n)) as u8;
    inserted(list, &[single(kind, q)], random)
}

fn inserted(list: &[Gate], steps: &[Gate], random: &mut Random) -> Vec<Gate> {
    let mut out = list.to_vec();
    let at = random.below(list.len() + 1);
    out.splice(at..at, steps.iter().copied());
    out
}
