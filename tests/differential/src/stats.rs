//! How often each kind of answer was reached.

use crate::case::{Case, Kind};
use crate::check::Expected;
use std::collections::BTreeMap;
use tally::call::{Answer, FULL, RANGE};
use tally::capacity;
use tally::session::Run;
use tally::text::{fields, lines};
use tally::verdict::Ruling;

/// What a run has to reach at least once. The numbers are those of `no`.
const SESSION: [&str; 16] = [
    "ok",
    "v",
    "same",
    "factor",
    "differ",
    "m",
    "no 1",
    "no 2",
    "no 3",
    "no 4",
    "no 5",
    "no 6",
    "no 7",
    "no 8",
    "code 9",
    "collections that free",
];
/// Of the lines that call `on`: its answers, and masks right after a collection that took nodes away
/// and after a full store.
const ON: [&str; 7] = [
    "m 0",
    "m above 65535",
    "m after a collection that frees",
    "m after no 8",
    "no 1",
    "no 2",
    "no 3",
];
/// Of the lines that call `lows`: its answers; of the accepted ones how many indices move on which
/// the tensor depends (it is changed exactly where one does), what stands right before and whether
/// the last place is filled; and the sessions in which `low` and `collect` are accepted too.
const LOWS: [&str; 17] = [
    "ok",
    "ok of no index",
    "ok that changes the tensor",
    "ok that moves two or more",
    "ok that moves neighbours",
    "ok that moves the last index",
    "ok after a collection that frees",
    "ok after no 8",
    "ok that fills the store",
    "no 1",
    "no 2",
    "no 3",
    "no 4 by index 0",
    "no 4 by size",
    "no 7",
    "no 8",
    "sessions with low and collect",
];
const VERDICT: [&str; 10] = [
    "same", "factor", "differ", "no 8", "no 10", "no 11", "no 12", "no 13", "no 14", "code 9",
];

#[derive(Default)]
pub struct Stats {
    sessions: u64,
    stepwise: u64,
    lines: u64,
    verdicts: u64,
    most_nodes: usize,
    session: Counts,
    on: Counts,
    lows: Counts,
    verdict: Counts,
}

type Counts = BTreeMap<String, u64>;

impl Stats {
    pub fn note(&mut self, case: &Case, expected: &Expected) {
        match expected {
            Expected::Session(run) => self.note_session(case, run),
            Expected::Verdict(ruling) => self.note_verdict(ruling.as_ref()),
        }
        debug_assert!((case.kind == Kind::Verdict) == matches!(expected, Expected::Verdict(_)));
    }

    fn note_session(&mut self, case: &Case, run: &Run) {
        self.sessions += 1;
        self.stepwise += u64::from(case.stepwise);
        self.lines += run.answers.len() as u64;
        add(&mut self.session, "code 9", u64::from(run.code == 9));
        let lines = lines(&case.text);
        let mixed = u64::from(mixes(&lines, &run.answers));
        add(&mut self.lows, "sessions with low and collect", mixed);
        let full = capacity(case.sizes.store_bytes);
        let mut lowered = run.tally.lowered.iter().copied();
        let (mut count, mut before) = (0, Line::Other);
        for (line, answer) in lines.into_iter().zip(&run.answers) {
            match fields(line)[0] {
                b"on" => self.note_on(answer, before),
                b"lows" => {
                    self.note_lows(line, answer, before, &mut lowered);
                    let fills = count < full && *answer == Answer::Ok(full);
                    add(&mut self.lows, "ok that fills the store", u64::from(fills));
                }
                _ => {}
            }
            before = Line::of(line, answer, count);
            let freed = u64::from(before == Line::Freeing);
            add(&mut self.session, "collections that free", freed);
            add(&mut self.session, &answer_name(answer), 1);
            if let Answer::Ok(nodes) = *answer {
                count = nodes;
                self.most_nodes = self.most_nodes.max(count);
            }
        }
    }

    fn note_on(&mut self, answer: &Answer, before: Line) {
        let Answer::Mask(mask) = *answer else {
            return add(&mut self.on, &answer_name(answer), 1);
        };
        match mask {
            0 => add(&mut self.on, "m 0", 1),
            65_536.. => add(&mut self.on, "m above 65535", 1),
            _ => {}
        }
        match before {
            Line::Freeing => add(&mut self.on, "m after a collection that frees", 1),
            Line::Full => add(&mut self.on, "m after no 8", 1),
            Line::Other => {}
        }
    }

    /// Next in `lowered` is what the tally noted of this line, if it is accepted.
    fn note_lows(
        &mut self,
        line: &[u8],
        answer: &Answer,
        before: Line,
        lowered: &mut impl Iterator<Item = u32>,
    ) {
        add(&mut self.lows, &lows_answer_name(line, answer), 1);
        if !matches!(answer, Answer::Ok(_)) {
            return;
        }
        let moved = lowered.next().expect("noted by the tally");
        for (name, holds) in [
            ("ok of no index", line.ends_with(b"\t0")),
            ("ok that changes the tensor", moved != 0),
            ("ok that moves two or more", moved.count_ones() > 1),
            ("ok that moves neighbours", moved & moved >> 1 != 0),
            ("ok that moves the last index", moved >> 23 != 0),
            ("ok after a collection that frees", before == Line::Freeing),
            ("ok after no 8", before == Line::Full),
        ] {
            add(&mut self.lows, name, u64::from(holds));
        }
    }

    fn note_verdict(&mut self, ruling: Option<&Ruling>) {
        self.verdicts += 1;
        add(&mut self.verdict, &ruling_name(ruling), 1);
    }

    /// What was never reached.
    pub fn missing(&self) -> Vec<String> {
        let groups: [(&str, &[&str], &Counts); 4] = [
            ("session", &SESSION, &self.session),
            ("on", &ON, &self.on),
            ("lows", &LOWS, &self.lows),
            ("verdict", &VERDICT, &self.verdict),
        ];
        let unreached = groups.iter().flat_map(|(group, names, counts)| {
            let none = |name: &&&str| count(counts, name) == 0;
            names
                .iter()
                .filter(none)
                .map(move |name| format!("{group} {name}"))
        });
        unreached.collect()
    }

    /// In words.
    pub fn summary(&self) -> String {
        let listed = |names: &[&str], counts: &Counts| -> String {
            let each = names
                .iter()
                .map(|name| format!("{name}: {}", count(counts, name)));
            each.collect::<Vec<_>>().join(", ")
        };
        format!(
            "{} sessions ({} of them compared after each line), {} lines, up to {} nodes\n  {}\n\
             \x20 on: {}\n  lows: {}\n{} verdicts\n  {}",
            self.sessions,
            self.stepwise,
            self.lines,
            self.most_nodes,
            listed(&SESSION, &self.session),
            listed(&ON, &self.on),
            listed(&LOWS, &self.lows),
            self.verdicts,
            listed(&VERDICT, &self.verdict)
        )
    }
}

/// Whether `low`, `lows` and `collect` are all accepted.
fn mixes(lines: &[&[u8]], answers: &[Answer]) -> bool {
    let accepted = |word: &[u8]| {
        let mut answered = lines.iter().zip(answers);
        answered.any(|(line, answer)| fields(line)[0] == word && matches!(answer, Answer::Ok(_)))
    };
    accepted(b"low") && accepted(b"lows") && accepted(b"collect")
}

fn answer_name(answer: &Answer) -> String {
    match answer {
        Answer::Ok(_) => "ok".into(),
        Answer::Value(_) => "v".into(),
        Answer::Same => "same".into(),
        Answer::Factor(_) => "factor".into(),
        Answer::Differ => "differ".into(),
        Answer::Mask(_) => "m".into(),
        Answer::No(number) => format!("no {number}"),
    }
}

/// Of an answer to `lows`: the name, and what 4 is for. A number is odd by its last digit.
fn lows_answer_name(line: &[u8], answer: &Answer) -> String {
    let name = answer_name(answer);
    match (*answer == Answer::No(RANGE), line.last()) {
        (true, Some(digit)) if digit % 2 == 1 => format!("{name} by index 0"),
        (true, _) => format!("{name} by size"),
        (false, _) => name,
    }
}

/// What the line before a call was.
#[derive(Clone, Copy, PartialEq)]
enum Line {
    /// A collection that took a node away.
    Freeing,
    /// A line refused as full.
    Full,
    Other,
}

impl Line {
    /// The line that got this answer, where `count` nodes stood before it.
    fn of(line: &[u8], answer: &Answer, count: usize) -> Line {
        match *answer {
            Answer::Ok(left) if line == b"collect" && left < count => Line::Freeing,
            Answer::No(FULL) => Line::Full,
            _ => Line::Other,
        }
    }
}

fn count(counts: &Counts, name: &str) -> u64 {
    counts.get(name).copied().unwrap_or(0)
}

fn add(counts: &mut Counts, name: &str, times: u64) {
    *counts.entry(name.into()).or_default() += times;
}

fn ruling_name(ruling: Option<&Ruling>) -> String {
    match ruling {
        None => "code 9".into(),
        Some(Ruling::Same) => "same".into(),
        Some(Ruling::Factor(_)) => "factor".into(),
        Some(Ruling::Differ) => "differ".into(),
        Some(Ruling::No(fault)) => format!("no {}", fault.number),
    }
}
