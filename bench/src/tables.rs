//! The tables, in Markdown.

use crate::cases::{self, Case};
use crate::check;
use crate::engine::count::Tally;
use crate::engine::Engine;
use crate::judges::{Judge, Judges, CAPACITY};
use crate::measure::{least, milliseconds};
use crate::options::Options;
use std::time::Duration;

fn print_row(cells: &[String]) {
    println!("| {} |", cells.join(" | "));
}

/// The heading, its cells parted by bars.
fn print_head(cells: &str) {
    println!("| {cells} |");
    println!("|{}", "---|".repeat(cells.split('|').count()));
}

/// What the unverified engine does on a text.
fn tally(text: &[u8], words: usize) -> Tally {
    let mut engine = Engine::<Tally>::new(words / 4);
    engine.verdict(text, CAPACITY);
    engine.count
}

/// The time of each engine; None for the proved one where it is not linked.
struct Times {
    proved: Option<Duration>,
    unverified: Duration,
    dense: Duration,
}

fn time(judges: &mut Judges, text: &[u8], reps: usize) -> Times {
    let run = |j: &mut dyn Judge| {
        least(reps, || {
            std::hint::black_box(j.judge(std::hint::black_box(text), CAPACITY));
        })
    };
    let dense = run(&mut judges.dense);
    let mut diagrams: Vec<Duration> = judges.diagrams.iter_mut().map(|j| run(&mut **j)).collect();
    let unverified = diagrams.pop().expect("the unverified engine is the last");
    Times {
        proved: diagrams.pop(),
        unverified,
        dense,
    }
}

fn ratio(proved: Option<Duration>, unverified: Duration) -> String {
    proved.map_or("-".into(), |p| {
        format!("{:.1}", p.as_secs_f64() / unverified.as_secs_f64())
    })
}

fn chosen(options: &Options) -> Vec<Case> {
    let sizes = |f| options.qubits.iter().map(move |&n| (f, n));
    let pairs = options.families.iter().flat_map(|&f| sizes(f));
    pairs.flat_map(|(f, n)| cases::cases(f, n)).collect()
}

/// Every family and number of qubits; the engines have to agree before they are timed.
pub fn families(judges: &mut Judges, options: &Options) {
    print_head(
        "Family | n | Gates | Answer | Nodes | Proved, ms | Unverified, ms \
         | Ratio | Dense, ms",
    );
    for c in chosen(options) {
        let answer = check::one(judges, &c.text);
        let t = time(judges, &c.text, options.reps);
        print_row(&[
            c.family.name().into(),
            c.qubits.to_string(),
            c.gates.to_string(),
            String::from_utf8_lossy(&answer)
                .trim_end()
                .replace('\t', " "),
            tally(&c.text, options.words).largest.to_string(),
            t.proved.map_or("-".into(), milliseconds),
            milliseconds(t.unverified),
            ratio(t.proved, t.unverified),
            milliseconds(t.dense),
        ]);
    }
}

/// How the cost of a gate grows with the nodes, among the cases that are wanted.
pub fn growth(judges: &mut Judges, options: &Options) {
    let wanted =
        |c: &Case| options.families.contains(&c.family) && options.qubits.contains(&c.qubits);
    let tallied = |c: Case| (tally(&c.text, options.words), c);
    let cases = cases::growth().into_iter().filter(wanted);
    let mut all: Vec<(Tally, Case)> = cases.map(tallied).collect();
    if all.is_empty() {
        return;
    }
    all.sort_by_key(|(t, _)| t.before / t.collections);
    print_head(
        "n | Gates | Nodes, most | Nodes, mean | With garbage, mean \
         | Proved, µs a gate | ns a node | Unverified, µs a gate | ns a node | Ratio | Dense, µs a gate",
    );
    for (t, c) in all {
        check::one(judges, &c.text);
        let times = time(judges, &c.text, options.reps);
        let gate = |d: Duration| d.as_secs_f64() / t.collections as f64;
        let node = |d: Duration| d.as_secs_f64() / t.before as f64;
        let micro = |s: f64| format!("{:.2}", s * 1e6);
        let nano = |s: f64| format!("{:.0}", s * 1e9);
        print_row(&[
            c.qubits.to_string(),
            c.gates.to_string(),
            t.largest.to_string(),
            (t.after / t.collections).to_string(),
            (t.before / t.collections).to_string(),
            times.proved.map_or("-".into(), |p| micro(gate(p))),
            times.proved.map_or("-".into(), |p| nano(node(p))),
            micro(gate(times.unverified)),
            nano(node(times.unverified)),
            ratio(times.proved, times.unverified),
            micro(gate(times.dense)),
        ]);
    }
}

/// What the unverified engine does, by family.
pub fn counts(options: &Options) {
    print_head(
        "Family | n | Gates | Makes | Probes | Lookups | Hits | Inverses | of 1 \
         | Collections | Nodes before | Nodes after | Most before | Most after",
    );
    for c in chosen(options) {
        let t = tally(&c.text, options.words);
        let numbers = [
            t.makes,
            t.probes,
            t.lookups,
            t.hits,
            t.inverses,
            t.trivial,
            t.collections,
            t.before,
            t.after,
            t.peak as u64,
            t.largest as u64,
        ];
        let mut row = vec![
            c.family.name().into(),
            c.qubits.to_string(),
            c.gates.to_string(),
        ];
        row.extend(numbers.iter().map(u64::to_string));
        print_row(&row);
    }
}
