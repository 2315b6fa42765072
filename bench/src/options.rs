//! The command line.

use crate::lists::{Family, FAMILIES};

pub struct Options {
    pub families: Vec<Family>,
    pub qubits: Vec<u8>,
    pub reps: usize,
    pub words: usize,
    /// random lists of each family that are checked first
    pub lists: usize,
    pub mode: Mode,
}

pub enum Mode {
    Tables,
    Counts,
    /// only this engine, on the first case of the family and number of qubits, so many times
    Profile(Family, u8, String, usize),
}

const USAGE: &str =
    "usage: bench [--family NAME] [--n N] [--reps R] [--cache WORDS] [--lists L] [--counts]
             [--profile FAMILY N [--engine proved|unverified|dense] [--times K]]
families: clifford, clifford+t, ghz, reversible, diagonal; N is 2 to 8";

fn fail(why: &str) -> ! {
    eprintln!("bench: {why}\n{USAGE}");
    std::process::exit(2);
}

struct Words(std::env::Args);

impl Words {
    fn text(&mut self, option: &str) -> String {
        let word = self.0.next();
        word.unwrap_or_else(|| fail(&format!("{option} wants a value")))
    }

    fn number(&mut self, option: &str) -> usize {
        let word = self.text(option).parse();
        word.unwrap_or_else(|_| fail(&format!("{option} wants a number")))
    }

    fn family(&mut self, option: &str) -> Family {
        let name = self.text(option);
        Family::named(&name).unwrap_or_else(|| fail(&format!("no family {name}")))
    }

    fn qubits(&mut self, option: &str) -> u8 {
        match self.number(option) {
            n @ 2..=8 => n as u8,
            _ => fail("N is 2 to 8"),
        }
    }
}

pub fn read() -> Options {
    let mut words = Words(std::env::args());
    words.0.next();
    let mut options = Options {
        families: FAMILIES.to_vec(),
        qubits: (2..=8).collect(),
        reps: 5,
        words: 65536,
        lists: 200,
        mode: Mode::Tables,
    };
    let mut profile = None;
    let mut engine = String::from("proved");
    let mut times = 1;
    while let Some(option) = words.0.next() {
        match option.as_str() {
            "--family" => options.families = vec![words.family(&option)],
            "--n" => options.qubits = vec![words.qubits(&option)],
            "--reps" => options.reps = words.number(&option).max(1),
            "--cache" => options.words = words.number(&option).max(4),
            "--lists" => options.lists = words.number(&option),
            "--counts" => options.mode = Mode::Counts,
            "--profile" => profile = Some((words.family(&option), words.qubits(&option))),
            "--engine" => engine = words.text(&option),
            "--times" => times = words.number(&option),
            _ => fail(&format!("no option {option}")),
        }
    }
    if let Some((family, n)) = profile {
        options.mode = Mode::Profile(family, n, engine, times);
    }
    options
}
