//! Engines that are wrong on purpose: each must be found, or the comparison compares nothing.

pub mod altered;
pub mod diagram;
pub mod model;

use crate::case::Case;
use crate::check::check;
use crate::engine::Engine;
use altered::{Altered, ALTERATIONS};
use model::{Model, BLUNDERS};

/// Cases among which each fault has to be found.
const AMONG: u64 = 1000;

/// Says which fault was not found, or where the right model was found wrong.
pub fn self_test(seed: u64) -> Result<(), String> {
    let cases: Vec<Case> = (0..AMONG).map(|number| Case::make(seed, number)).collect();
    for (number, case) in cases.iter().enumerate() {
        check(&mut Model::right(), case)
            .map_err(|why| format!("the right model, case {number}: {why}"))?;
    }
    println!("{AMONG} cases; the right model agrees with the tally in all. Found wrong:");
    for (blunder, name) in BLUNDERS {
        found(&cases, name, &mut Model::new(blunder))?;
    }
    for (alteration, name) in ALTERATIONS {
        found(&cases, name, &mut Altered::new(alteration))?;
    }
    let faults = BLUNDERS.len() + ALTERATIONS.len();
    println!("self-test: {faults} wrong engines, each found");
    Ok(())
}

fn found(cases: &[Case], name: &str, engine: &mut dyn Engine) -> Result<(), String> {
    let differs = |case: &&Case| check(engine, case).is_err();
    let times = cases.iter().filter(differs).count();
    println!("  {name}: in {times} cases");
    if times == 0 {
        return Err(format!("not found: {name}"));
    }
    Ok(())
}
