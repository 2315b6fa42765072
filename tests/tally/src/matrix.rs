//! A list of gates as a plain matrix. The verdict on two lists is also the comparison of these.

use crate::field::{inverse, minus, plus, times, Weight};
use crate::gate::{matrix, Gate, Name};
use crate::verdict::{Lists, Ruling};

/// Column by column: where each basis input goes. Bit q of a number is qubit q.
pub fn product(n: u32, list: &[Gate]) -> Vec<Vec<Weight>> {
    let size = 1usize << n;
    let basis =
        |input| -> Vec<Weight> { (0..size).map(|row| Weight::from(row == input)).collect() };
    let column = |input| list.iter().fold(basis(input), |c, gate| apply(gate, &c));
    (0..size).map(column).collect()
}

/// One gate on one column.
fn apply(gate: &Gate, column: &[Weight]) -> Vec<Weight> {
    let a = gate.qubits[0];
    let b = gate.qubits.get(1).copied().unwrap_or(a);
    let bit = |row: usize, q: u32| row >> q & 1;
    let entry = |row: usize| match gate.name {
        Name::CX => column[row ^ bit(row, a) << b],
        Name::CZ if bit(row, a) == 1 && bit(row, b) == 1 => minus(column[row]),
        Name::CZ => column[row],
        Name::SW if bit(row, a) != bit(row, b) => column[row ^ 1 << a ^ 1 << b],
        Name::SW => column[row],
        one => {
            let weights = matrix(one).expect("a gate on one qubit")[bit(row, a)];
            let (zero, one) = (row & !(1 << a), row | 1 << a);
            plus(
                times(weights[0], column[zero]),
                times(weights[1], column[one]),
            )
        }
    };
    (0..column.len()).map(entry).collect()
}

/// "A verdict is "same" exactly when both lists' tensors agree at every assignment [...], "factor"
/// exactly when they differ and one is a nonzero multiple of the other, else "differ"."
pub fn compare(lists: &Lists) -> Ruling {
    let first = product(lists.n, &lists.first).concat();
    let second = product(lists.n, &lists.second).concat();
    let place = second
        .iter()
        .position(|&w| w != 0)
        .expect("no product of gates is zero");
    let f = times(first[place], inverse(second[place]));
    let multiple = first.iter().zip(&second).all(|(&x, &y)| x == times(f, y));
    match f {
        _ if !multiple || f == 0 => Ruling::Differ,
        1 => Ruling::Same,
        _ => Ruling::Factor(f),
    }
}
