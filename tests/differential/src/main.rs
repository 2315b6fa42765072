//! Seeded sessions and verdicts: the engine, with nodes, against the documents' tally, with
//! plain tables.

mod case;
mod check;
mod circuit;
mod decode;
mod draft;
mod engine;
mod huge;
mod lowerings;
mod memory;
mod repeats;
mod rng;
mod sessions;
mod spoil;
mod stats;
mod verdicts;
mod wrong;

use case::{Case, Kind};
use check::Expected;
use engine::{Engine, Proved};
use stats::Stats;
use std::process::ExitCode;
use std::time::Instant;
use wrong::model::Model;

const USAGE: &str = "differential [--seed S] [--cases N] [--case I] [--model] [--self-test]";

/// A line is printed after so many cases.
const PROGRESS: u64 = 20_000;

struct Options {
    seed: u64,
    cases: u64,
    only: Option<u64>,
    /// The self-test's right model in place of the proved engine.
    model: bool,
    self_test: bool,
}

fn options() -> Option<Options> {
    let mut options = Options {
        seed: 1,
        cases: 100_000,
        only: None,
        model: false,
        self_test: false,
    };
    let mut arguments = std::env::args().skip(1);
    while let Some(argument) = arguments.next() {
        let mut number = || arguments.next()?.parse().ok();
        match argument.as_str() {
            "--seed" => options.seed = number()?,
            "--cases" => options.cases = number()?,
            "--case" => options.only = Some(number()?),
            "--model" => options.model = true,
            "--self-test" => options.self_test = true,
            _ => return None,
        }
    }
    Some(options)
}

fn main() -> ExitCode {
    let Some(options) = options() else {
        eprintln!("{USAGE}");
        return ExitCode::from(2);
    };
    println!("seed {}", options.seed);
    let mut engine: Box<dyn Engine> = if options.model {
        Box::new(Model::right())
    } else {
        Box::new(Proved)
    };
    let seed = options.seed;
    let done = match options.only {
        _ if options.self_test => wrong::self_test(seed),
        Some(number) => one(&mut *engine, seed, number),
        None => all(&mut *engine, seed, options.cases),
    };
    match done {
        Ok(()) => ExitCode::SUCCESS,
        Err(why) => {
            println!("{why}");
            ExitCode::FAILURE
        }
    }
}

/// Shows one case and runs it.
fn one(engine: &mut dyn Engine, seed: u64, number: u64) -> Result<(), String> {
    let case = Case::make(seed, number);
    println!("{}", shown(&case));
    run(engine, &case, seed, number).map(drop)?;
    println!("case {number}: no difference");
    Ok(())
}

fn all(engine: &mut dyn Engine, seed: u64, cases: u64) -> Result<(), String> {
    let start = Instant::now();
    let mut stats = Stats::default();
    for number in 0..cases {
        let case = Case::make(seed, number);
        let expected = run(engine, &case, seed, number)?;
        stats.note(&case, &expected);
        if (number + 1) % PROGRESS == 0 && number + 1 < cases {
            println!("{} cases", number + 1);
        }
    }
    println!("{}", stats.summary());
    let missing = stats.missing();
    if !missing.is_empty() {
        return Err(format!("never reached: {}", missing.join(", ")));
    }
    println!(
        "{cases} cases, no difference, {:.0} s",
        start.elapsed().as_secs_f64()
    );
    Ok(())
}

fn run(engine: &mut dyn Engine, case: &Case, seed: u64, number: u64) -> Result<Expected, String> {
    check::check(engine, case).map_err(|why| {
        format!(
            "DIFFERENCE: --seed {seed} --case {number}\n{}\n{why}",
            shown(case)
        )
    })
}

fn shown(case: &Case) -> String {
    let kind = match case.kind {
        Kind::Session => "session",
        Kind::Verdict => "verdict",
    };
    let text = case.text.escape_ascii().to_string().replace("\\n", "\\n\n");
    let earlier = case.earlier.as_ref().map(|text| {
        format!(
            "earlier, on the same store and cache:\n{}\n",
            text.escape_ascii()
        )
    });
    format!(
        "{kind}{}, {:?}\n{}text:\n{text}",
        if case.stepwise {
            ", compared after each line"
        } else {
            ""
        },
        case.sizes,
        earlier.unwrap_or_default()
    )
}
