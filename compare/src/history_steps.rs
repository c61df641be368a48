//! The steps of a history: what is asked before a write and answered after it is held to docs/FORMAT.md and to what is
//! promised.

use crate::answers::Left;
use crate::history::{History, Step};
use crate::history_pair::{Accident, Write};
use crate::history_writes::{random_pair, random_write};
use crate::implementation::{Implementation, Planned};
use crate::outcome::Expected;
use crate::part::{Checked, Fields, Mismatch, Report, Run};
use crate::plan_reference::Plan;
use crate::trials::Accidents;

const PLANNED: &str = "what to write next";
const ANSWERS: &str = "answers after a write";
const EVERY_PAIR: &str = "answers on every pair";

/// How a history goes on.
pub enum Next {
    Step(Write, Step),
    /// No generation or no number is left.
    UsedUp,
    /// After it nothing is promised.
    Accident,
}

/// The steps of one trial.
pub struct Steps {
    pub run: Run,
    pub tried: &'static dyn Implementation,
    pub taken: u64,
    /// Of each kind, in its order.
    pub accidents: Vec<Accidents>,
}

impl Steps {
    /// The correct write of a pair, or the number that it is refused with where none is left; the same is answered.
    pub fn plan(&self, history: &History, pair: usize) -> Result<Expected<Plan>, Mismatch> {
        let (expected, found) = (history.planned(pair), history.planned_found(pair));
        self.run.check(PLANNED, found == expected, || Report {
            inputs: history.fields(),
            expected: planned_fields(&expected),
            found: planned_fields(&found),
        })?;
        Ok(history.next(pair))
    }

    /// Writes, and answers what that left; `None` after an accident that is left out.
    pub fn write(&mut self, history: &mut History, write: &Write) -> Result<Option<Step>, Mismatch> {
        if history.has_same_checksum(write) {
            self.accidents[Accident::SameChecksum as usize].add();
        }
        let step = match history.write(write) {
            Ok(step) => step,
            Err(accident) => {
                self.accidents[accident as usize].add();
                return Ok(None);
            }
        };
        if step.left == Left::OlderPasses {
            self.accidents[Accident::OldPayload as usize].add();
        }
        self.taken += 1;
        self.answers(history, &step)?;
        Ok(Some(step))
    }

    /// A random write of a random pair, or of the only one that may be written.
    pub fn random(&mut self, history: &mut History) -> Result<Next, Mismatch> {
        let pair = random_pair(&mut self.run.rng, history);
        let Ok(plan) = self.plan(history, pair)? else { return Ok(Next::UsedUp) };
        let write = random_write(&mut self.run.rng, history, pair, &plan);
        let step = self.write(history, &write)?;
        Ok(step.map_or(Next::Accident, |step| Next::Step(write, step)))
    }

    fn answers(&self, history: &History, step: &Step) -> Checked {
        let (expected, found) = (history.expected(step), history.found(step, history.mark_read()));
        let report = || Report { inputs: history.fields(), expected: expected.fields(), found: found.fields() };
        if let Some(promise) = history.broken(&found) {
            self.run.check(promise, false, report)?;
        }
        self.run.check(ANSWERS, found == expected, report)
    }

    /// Every pair is answered as it was when it was written last.
    pub fn every_pair(&self, history: &History) -> Checked {
        let (expected, found) = (history.standing(), history.standing_found());
        self.run.check(EVERY_PAIR, found == expected, || Report {
            inputs: history.fields(),
            expected: expected.fields(),
            found: found.fields(),
        })
    }

    pub fn print(&self) {
        self.run.counts.print();
        self.accidents.iter().for_each(Accidents::print);
    }

    pub fn faults(&self, least: u64) -> Vec<String> {
        let mut faults = self.run.counts.faults(least);
        faults.extend(self.accidents.iter().filter_map(Accidents::fault));
        faults
    }
}

pub fn planned_fields(planned: &Planned) -> Fields {
    vec![
        ("operator's next number", format!("{:x?}", planned.next_number)),
        ("number above its winners", format!("{:x?}", planned.heal_number)),
        ("plan of the pair", format!("{:x?}", planned.write)),
        ("plan that heals", format!("{:x?}", planned.heal)),
    ]
}
