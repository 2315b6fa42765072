//! Compares the proved engine with an unverified one of the same algorithm and with dense matrices: first the answers,
//! then the times.

mod cases;
mod check;
mod dense;
mod engine;
mod field;
mod judges;
mod lists;
mod measure;
mod options;
mod random;
mod rewrite;
mod tables;
mod text;

use judges::{Judge, Judges, CAPACITY};
use lists::Family;
use options::{Mode, Options};

const STDIN: &[u8] = include_bytes!("../../crates/cases/stdin");
const STDOUT: &[u8] = include_bytes!("../../crates/cases/stdout");

fn report(options: &Options) {
    let mut judges = Judges::new(options.words);
    let stored = check::stored(&mut judges, STDIN, STDOUT);
    let [same, factor, differ, full, refused] = check::random(&mut judges, options.lists);
    println!("The engines agree on {stored} stored verdicts and on random ones: {same} same,");
    println!("{factor} factor, {differ} differ, {full} full, {refused} refused otherwise.\n");
    println!(
        "Capacity {CAPACITY}, {} remembered results.\n",
        options.words / 4
    );
    tables::families(&mut judges, options);
    println!();
    tables::growth(&mut judges, options);
}

fn profile(family: Family, n: u8, engine: &str, times: usize, words: usize) {
    let mut judges = Judges::new(words);
    let case = &cases::cases(family, n)[0];
    let mut all: Vec<&mut dyn Judge> = judges
        .diagrams
        .iter_mut()
        .map(|j| &mut **j as &mut dyn Judge)
        .collect();
    all.push(&mut judges.dense);
    let Some(judge) = all.into_iter().find(|j| j.name() == engine) else {
        eprintln!("bench: no engine {engine} in this build");
        std::process::exit(2);
    };
    for _ in 0..times {
        let answer = judge.judge(&case.text, CAPACITY);
        print!("{}", String::from_utf8_lossy(&answer));
    }
}

fn main() {
    let options = options::read();
    match &options.mode {
        Mode::Tables => report(&options),
        Mode::Counts => tables::counts(&options),
        Mode::Profile(family, n, engine, times) => {
            profile(*family, *n, engine, *times, options.words)
        }
    }
}
