//! Compares one call of a metadata function: the number that it answers, and what it leaves in everything lent to it.

use crate::counts::Answer;
use crate::lent::{Lent, LentCell};
use crate::part::{number, Checked, Fields, Report, Run};
use crate::value::Value;

/// What the reference answers: its values, or the number of a refusal.
pub type Expected<T> = Result<T, u32>;

/// Something lent, with what it must hold after the call.
pub trait Held {
    fn holds(&self) -> bool;
    fn before_text(&self) -> String;
    fn expected_text(&self) -> String;
    fn found_text(&self) -> String;
}

impl Held for Lent {
    fn holds(&self) -> bool {
        self.holds()
    }

    fn before_text(&self) -> String {
        self.before_text()
    }

    fn expected_text(&self) -> String {
        self.expected_text()
    }

    fn found_text(&self) -> String {
        self.found_text()
    }
}

/// A cell and the value that it must hold, `None` where it must hold what it held before.
pub struct Filled<'a, T> {
    cell: &'a LentCell<T>,
    value: Option<T>,
}

/// The cell must hold the value, or at a refusal what it held before.
pub fn filled<'a, T, V>(cell: &'a LentCell<T>, expected: &Expected<V>, value: fn(&V) -> T) -> Filled<'a, T> {
    Filled { cell, value: expected.as_ref().ok().map(value) }
}

/// The cell must hold what it held before.
pub fn kept<T>(cell: &LentCell<T>) -> Filled<'_, T> {
    Filled { cell, value: None }
}

impl<T: Value> Held for Filled<'_, T> {
    fn holds(&self) -> bool {
        self.cell.holds(self.value)
    }

    fn before_text(&self) -> String {
        self.cell.expected_text(None)
    }

    fn expected_text(&self) -> String {
        self.cell.expected_text(self.value)
    }

    fn found_text(&self) -> String {
        self.cell.found_text()
    }
}

/// The number of a refusal, 0 where there is none.
pub fn refusal<T>(expected: &Expected<T>) -> u32 {
    expected.as_ref().err().copied().unwrap_or(0)
}

pub fn answer<T>(expected: &Expected<T>) -> Answer {
    match expected {
        Ok(_) => Answer::Done,
        Err(refusal) => Answer::Refusal(*refusal),
    }
}

/// Counts a case that the reference by itself answers otherwise than is expected, by its own answer.
pub fn count_other<T: PartialEq>(run: &mut Run, part: &'static str, expected: &Expected<T>, rust: &Expected<T>) {
    if expected != rust {
        run.counts.add_part(part, answer(rust));
    }
}

/// A call that was made: its answer, and the number that it must give.
pub struct Call {
    pub function: &'static str,
    pub answer: Answer,
    pub expected: u32,
    pub found: u32,
}

impl Call {
    pub fn new<T>(function: &'static str, expected: &Expected<T>, found: u32) -> Self {
        Self { function, answer: answer(expected), expected: refusal(expected), found }
    }

    /// Number and lent parts are as expected; `numbers` are the arguments that are not lent.
    pub fn compare(
        self,
        run: &mut Run,
        lent: &[(&'static str, &dyn Held)],
        numbers: impl FnOnce() -> Fields,
    ) -> Checked {
        let equal = self.found == self.expected && lent.iter().all(|(_, part)| part.holds());
        run.case(self.function, self.answer, equal, || {
            let mut report = Report {
                inputs: numbers(),
                expected: vec![("result", number(self.expected))],
                found: vec![("result", number(self.found))],
            };
            for (name, part) in lent {
                report.inputs.push((name, part.before_text()));
                report.expected.push((name, part.expected_text()));
                report.found.push((name, part.found_text()));
            }
            report
        })
    }
}
