//! Trials that a driver runs one after the other, and the accidents that they meet.

use crate::part::Checked;
use std::ops::RangeInclusive;
use std::process::ExitCode;

/// A trial under way.
pub trait Running {
    fn title(&self) -> &'static str;
    fn run(&mut self) -> Checked;
    /// Prints what was met.
    fn print(&self);
    /// What the trial lacks, and what it must not meet.
    fn faults(&self) -> Vec<String>;
    /// How many cases were tried.
    fn total(&self) -> u64;
}

/// Runs the trials; `cases` is what a case of theirs is called.
pub fn run_all(name: &str, cases: &str, seed: u64, trials: impl IntoIterator<Item = Box<dyn Running>>) -> ExitCode {
    println!("seed {seed:#x}");
    let mut total = 0;
    for mut trial in trials {
        println!("{}:", trial.title());
        if let Err(mismatch) = trial.run() {
            print!("{mismatch}");
            return ExitCode::FAILURE;
        }
        trial.print();
        let faults = trial.faults();
        if !faults.is_empty() {
            println!("fault of the driver:\n{}", faults.join("\n"));
            return ExitCode::FAILURE;
        }
        total += trial.total();
    }
    println!("seed {seed:#x}");
    println!("{name}: {total} {cases}, all as promised");
    ExitCode::SUCCESS
}

/// How often an accident of one kind was met.
pub struct Accidents {
    name: &'static str,
    /// After one that is left out nothing is promised.
    left_out: bool,
    allowed: RangeInclusive<u64>,
    met: u64,
}

impl Accidents {
    pub fn new(name: &'static str, left_out: bool, allowed: RangeInclusive<u64>) -> Self {
        Self { name, left_out, allowed, met: 0 }
    }

    /// Counts one, and answers whether it is left out.
    pub fn add(&mut self) -> bool {
        self.met += 1;
        self.left_out
    }

    pub fn print(&self) {
        let fate = if self.left_out { "left out" } else { "tried" };
        println!("accidents, {}, {fate}: {}", self.name, self.met);
    }

    /// Where more or fewer were met than there may be.
    pub fn fault(&self) -> Option<String> {
        let Self { name, allowed, met, .. } = self;
        (!allowed.contains(met)).then(|| format!("accidents, {name}: {met}, not in {allowed:?}"))
    }
}
