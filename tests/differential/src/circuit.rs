//! Lists of gates: random ones, and ones that are equal, equal up to a factor or different by one
//! gate by construction.

use crate::rng::Rng;
use tally::gate::{Gate, Name, NAMES};

pub fn gate(name: Name, qubits: &[u32]) -> Gate {
    Gate {
        name,
        qubits: qubits.to_vec(),
    }
}

/// A random name; without H the tensors of many qubits stay mostly zero.
fn name(rng: &mut Rng, n: u32, sparse: bool) -> Name {
    loop {
        let name = rng.pick(&NAMES).0;
        let dense = name == Name::H && sparse && !rng.percent(10);
        if name.qubits() <= n as usize && !dense {
            return name;
        }
    }
}

/// Different qubits below n, as many as the name has.
fn qubits(rng: &mut Rng, n: u32, name: Name) -> Vec<u32> {
    let a = rng.below(n as usize) as u32;
    if name.qubits() == 1 {
        return vec![a];
    }
    let b = (a + 1 + rng.below(n as usize - 1) as u32) % n;
    vec![a, b]
}

pub fn random_gate(rng: &mut Rng, n: u32, sparse: bool) -> Gate {
    let name = name(rng, n, sparse);
    let qubits = qubits(rng, n, name);
    Gate { name, qubits }
}

pub fn random_list(rng: &mut Rng, n: u32, len: usize, sparse: bool) -> Vec<Gate> {
    (0..len).map(|_| random_gate(rng, n, sparse)).collect()
}

/// What a second list is to be, next to the first.
#[derive(Clone, Copy, Debug)]
pub enum Relation {
    Equal,
    Factor,
    OneOff,
    Unrelated,
}

pub fn relation(rng: &mut Rng) -> Relation {
    use Relation::{Equal, Factor, OneOff, Unrelated};
    [Equal, Factor, OneOff, Unrelated][rng.weighted(&[40, 25, 25, 10])]
}

/// A list that stands so to the given one.
pub fn second(rng: &mut Rng, n: u32, first: &[Gate], relation: Relation) -> Vec<Gate> {
    let sparse = !first.iter().any(|g| g.name == Name::H);
    let mut list = match relation {
        Relation::Unrelated => random_list(rng, n, first.len(), sparse),
        _ => first.to_vec(),
    };
    for _ in 0..rng.between(0, 4) {
        rewrite(rng, n, &mut list, sparse);
    }
    match relation {
        Relation::Factor => insert_factor(rng, n, &mut list),
        Relation::OneOff => change_one(rng, n, &mut list, sparse),
        Relation::Equal | Relation::Unrelated => {}
    }
    list
}

/// One change that leaves the list's matrix as it is.
fn rewrite(rng: &mut Rng, n: u32, list: &mut Vec<Gate>, sparse: bool) {
    match rng.below(3) {
        0 => {
            let g = random_gate(rng, n, sparse);
            let i = rng.between(0, list.len());
            list.splice(i..i, [g.clone(), inverse(&g)]);
        }
        1 if !list.is_empty() => {
            let i = rng.below(list.len());
            let equal = expansion(&list[i]);
            list.splice(i..=i, equal);
        }
        _ if list.len() > 1 => {
            let i = rng.below(list.len() - 1);
            if commute(&list[i], &list[i + 1]) {
                list.swap(i, i + 1);
            }
        }
        _ => {}
    }
}

fn inverse(g: &Gate) -> Gate {
    let name = match g.name {
        Name::S => Name::SD,
        Name::SD => Name::S,
        Name::T => Name::TD,
        Name::TD => Name::T,
        own => own,
    };
    gate(name, &g.qubits)
}

/// A longer list with the gate's matrix, its first gate acting first.
fn expansion(g: &Gate) -> Vec<Gate> {
    let a = g.qubits[0];
    let b = g.qubits.last().copied().unwrap_or(a);
    let ones = |names: &[Name]| names.iter().map(|&name| gate(name, &[a])).collect();
    match g.name {
        Name::X => ones(&[Name::H, Name::Z, Name::H]),
        Name::Y => ones(&[Name::SD, Name::X, Name::S]),
        Name::Z => ones(&[Name::S, Name::S]),
        Name::S => ones(&[Name::T, Name::T]),
        Name::SD => ones(&[Name::TD, Name::TD]),
        Name::T => ones(&[Name::S, Name::TD]),
        Name::TD => ones(&[Name::SD, Name::T]),
        Name::H => ones(&[Name::Z, Name::H, Name::X]),
        Name::SW => [[a, b], [b, a], [a, b]]
            .map(|q| gate(Name::CX, &q))
            .to_vec(),
        Name::CZ => vec![
            gate(Name::H, &[b]),
            gate(Name::CX, &[a, b]),
            gate(Name::H, &[b]),
        ],
        Name::CX => vec![
            gate(Name::H, &[b]),
            gate(Name::CZ, &[b, a]),
            gate(Name::H, &[b]),
        ],
    }
}

/// Whether two gates surely commute: no common qubit, or both diagonal.
fn commute(g: &Gate, h: &Gate) -> bool {
    let diagonal = |g: &Gate| !matches!(g.name, Name::X | Name::Y | Name::H | Name::CX | Name::SW);
    let apart = g.qubits.iter().all(|q| !h.qubits.contains(q));
    apart || diagonal(g) && diagonal(h)
}

/// Inserts gates whose product is a factor: Z X Z X is -1, S X S X is i, T X T X is the eighth
/// root, and so on.
fn insert_factor(rng: &mut Rng, n: u32, list: &mut Vec<Gate>) {
    let turned = *rng.pick(&[Name::Z, Name::S, Name::SD, Name::T, Name::TD]);
    let q = [rng.below(n as usize) as u32];
    let i = rng.between(0, list.len());
    let four = [turned, Name::X, turned, Name::X].map(|name| gate(name, &q));
    list.splice(i..i, four);
}

/// Takes one gate out, puts one in or replaces one.
fn change_one(rng: &mut Rng, n: u32, list: &mut Vec<Gate>, sparse: bool) {
    let g = random_gate(rng, n, sparse);
    if list.is_empty() || rng.percent(30) {
        let i = rng.between(0, list.len());
        list.insert(i, g);
        return;
    }
    let i = rng.below(list.len());
    if rng.percent(50) {
        list[i] = g;
    } else {
        list.remove(i);
    }
}
