//! What every compared part has in common: its functions, its cases, and the report of a mismatch.

use crate::counts::{Answer, Counts, Function};
use crate::rng::Rng;
use std::fmt;

/// A part of the port.
pub struct Part {
    pub functions: &'static [Function],
    /// Every case of a small range.
    pub sweep: fn(&mut Run) -> Checked,
    /// At least one random case for each function.
    pub round: fn(&mut Run) -> Checked,
}

pub struct Run {
    pub rng: Rng,
    pub counts: Counts,
}

impl Run {
    /// Counts a case, or reports it where the two sides differ.
    pub fn case(
        &mut self,
        function: &'static str,
        answer: Answer,
        equal: bool,
        report: impl FnOnce() -> Report,
    ) -> Checked {
        self.check(function, equal, report)?;
        self.counts.add(function, answer);
        Ok(())
    }

    /// Reports what is not a case of its own where the two sides differ.
    pub fn check(&self, function: &'static str, equal: bool, report: impl FnOnce() -> Report) -> Checked {
        if equal {
            Ok(())
        } else {
            Err(Mismatch { function, report: report() })
        }
    }
}

pub type Checked = Result<(), Mismatch>;

/// Named values as text.
pub type Fields = Vec<(&'static str, String)>;

pub struct Report {
    pub inputs: Fields,
    pub expected: Fields,
    pub found: Fields,
}

pub struct Mismatch {
    function: &'static str,
    report: Report,
}

impl fmt::Display for Mismatch {
    fn fmt(&self, f: &mut fmt::Formatter<'_>) -> fmt::Result {
        writeln!(f, "MISMATCH in {} (lent parts in brackets, guards around them)", self.function)?;
        write_fields(f, "input", &self.report.inputs)?;
        write_fields(f, "expected", &self.report.expected)?;
        write_fields(f, "found", &self.report.found)
    }
}

fn write_fields(f: &mut fmt::Formatter<'_>, kind: &str, fields: &Fields) -> fmt::Result {
    for (name, text) in fields {
        writeln!(f, "  {kind:<8} {name}: {text}")?;
    }
    Ok(())
}

/// A number as hex text.
pub fn number(value: impl fmt::LowerHex) -> String {
    format!("{value:#x}")
}
