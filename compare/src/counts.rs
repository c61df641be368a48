//! Counts the cases met for every function and every answer it can give.

use std::collections::BTreeMap;
use std::fmt;

#[derive(Clone, Copy, PartialEq, Eq, PartialOrd, Ord)]
pub enum Answer {
    Done,
    Refusal(u32),
    /// Any answer to a position past the end of the buffer, which the reference cannot be asked for.
    PastEnd,
    Status(u32),
    Facts(u32),
    /// The decision on a pair or a store, by its name.
    Decision(&'static str),
}

impl fmt::Display for Answer {
    fn fmt(&self, f: &mut fmt::Formatter<'_>) -> fmt::Result {
        match self {
            Self::Done => f.pad("done"),
            Self::Refusal(number) => f.pad(&format!("refusal {number}")),
            Self::PastEnd => f.pad("past the end"),
            Self::Status(code) => f.pad(&format!("status {code}")),
            Self::Facts(shown) => f.pad(&format!("facts {shown}")),
            Self::Decision(name) => f.pad(name),
        }
    }
}

/// A function and the answers that a run must meet.
pub struct Function {
    name: &'static str,
    answers: &'static [Answer],
    one_a_case: bool,
}

impl Function {
    /// Each case has one answer.
    pub const fn new(name: &'static str, answers: &'static [Answer]) -> Self {
        Self { name, answers, one_a_case: true }
    }

    /// A part of a function's answer, of which a case may have none or many.
    pub const fn part(name: &'static str, answers: &'static [Answer]) -> Self {
        Self { name, answers, one_a_case: false }
    }
}

type Met = BTreeMap<(&'static str, Answer), u64>;

pub struct Counts {
    cases: Met,
    parts: Met,
}

impl Counts {
    pub fn new<'a>(functions: impl Iterator<Item = &'a Function>) -> Self {
        let mut counts = Self { cases: Met::new(), parts: Met::new() };
        for function in functions {
            let met = if function.one_a_case { &mut counts.cases } else { &mut counts.parts };
            met.extend(function.answers.iter().map(|answer| ((function.name, *answer), 0)));
        }
        counts
    }

    pub fn add(&mut self, function: &'static str, answer: Answer) {
        count(&mut self.cases, function, answer);
    }

    pub fn add_part(&mut self, name: &'static str, answer: Answer) {
        count(&mut self.parts, name, answer);
    }

    pub fn total(&self) -> u64 {
        self.cases.values().sum()
    }

    pub fn print(&self) {
        let met = || self.cases.iter().chain(&self.parts);
        let width = met().map(|((function, _), _)| function.len()).max().unwrap_or(0);
        for ((function, answer), count) in met() {
            println!("{function:<width$} {answer:<28} {count:>10}");
        }
    }

    /// What the run lacks: answers never met, and functions with fewer than `least` cases.
    pub fn faults(&self, least: u64) -> Vec<String> {
        let mut faults = Vec::new();
        for ((function, answer), count) in self.cases.iter().chain(&self.parts) {
            if *count == 0 {
                faults.push(format!("{function}: the answer '{answer}' was never met"));
            }
        }
        let mut cases = BTreeMap::new();
        for ((function, _), count) in &self.cases {
            *cases.entry(function).or_insert(0) += count;
        }
        for (function, count) in cases {
            if count < least {
                faults.push(format!("{function}: {count} cases, fewer than {least}"));
            }
        }
        faults
    }
}

fn count(met: &mut Met, name: &'static str, answer: Answer) {
    match met.get_mut(&(name, answer)) {
        Some(count) => *count += 1,
        None => panic!("{name}: the answer '{answer}' is not declared"),
    }
}
