//! The steps of a creation at random: what is asked before a first write and answered after it, and after zeros, is held to
//! docs/FORMAT.md and to what is promised. After each cut the creation is begun anew.

use crate::creation::{pairs_written, slots_zeroed, Creation, SLOTS};
use crate::creation_answers::Answered;
use crate::creation_outcomes::{
    count_creation, count_cut, count_first, count_zeroed, count_zeros, AGAIN, BLANK, OVER, OVER_TORN,
};
use crate::cut_store::{Pair, Write};
use crate::history_pair::Accident;
use crate::history_steps::{planned_fields, Steps};
use crate::history_writes::random_store;
use crate::part::{Checked, Mismatch, Report};
use crate::rng::Rng;
use crate::sample::HEADER;
use crate::tear::Tear;

const PLANNED: &str = "what to write first";
const ANSWERED: &str = "answers of a store that is being created, under either mark";

/// How many first writes of a creation are cut at most, and how often at most zeros are before them.
const MOST_CUTS: usize = 2;

/// What a creation came to.
enum Came {
    /// Every pair has its record.
    Whole,
    /// A write was cut, and pair 0 has no record.
    Cut,
    /// After it nothing is promised.
    Accident,
}

impl Steps {
    /// A store as its creation left it; `None` after an accident that is left out.
    pub fn created(&mut self) -> Result<Option<Vec<Pair>>, Mismatch> {
        let mut creation = self.begun()?;
        for _ in 0..self.run.rng.below(MOST_CUTS + 1) {
            let cut = self.cut_pair(&creation);
            match self.write_pairs(&mut creation, Some(cut))? {
                Came::Whole => return Ok(Some(creation.pairs)),
                Came::Accident => return Ok(None),
                Came::Cut => {
                    count_creation(&mut self.run, &creation.pairs, AGAIN);
                    self.zero(&mut creation)?;
                }
            }
        }
        self.write_pairs(&mut creation, None)?;
        Ok(Some(creation.pairs))
    }

    /// In blank slots, or in the place of an older store, with zeros by now.
    fn begun(&mut self) -> Result<Creation<'static>, Mismatch> {
        let store = random_store(&mut self.run.rng, self.tried);
        if self.run.rng.one_in(4) {
            count_creation(&mut self.run, &store, BLANK);
            return Ok(Creation::in_blank_slots(self.tried, store));
        }
        let mut creation = if self.run.rng.one_in(2) {
            Creation::over(self.tried, store)
        } else {
            Creation::over_cut(&mut self.run.rng, self.tried, store)
        };
        let before = if creation.has_torn_page() { OVER_TORN } else { OVER };
        count_creation(&mut self.run, &creation.pairs, before);
        self.zero(&mut creation)?;
        Ok(creation)
    }

    /// The pair whose first write is to be cut, often pair 0.
    fn cut_pair(&mut self, creation: &Creation) -> usize {
        if self.run.rng.one_in(2) {
            0
        } else {
            self.run.rng.below(creation.pairs.len())
        }
    }

    /// Zeros in every slot, begun anew after each cut.
    fn zero(&mut self, creation: &mut Creation) -> Checked {
        for _ in 0..self.run.rng.below(MOST_CUTS + 1) {
            self.zero_slots(creation, true)?;
        }
        self.zero_slots(creation, false)
    }

    /// Zeros in every slot, or until those in one are cut, often in one of pair 0.
    fn zero_slots(&mut self, creation: &mut Creation, cut: bool) -> Checked {
        let slots = slots_zeroed(&mut self.run.rng, creation.pairs.len());
        let among = if self.run.rng.one_in(2) { SLOTS } else { slots.len() };
        let cut = cut.then(|| self.run.rng.below(among));
        for (place, (at, slot)) in slots.into_iter().enumerate() {
            if cut == Some(place) {
                return self.cut_zeros(creation, at, slot);
            }
            creation.zero(at, slot, None);
            count_zeros(&mut self.run, at, None);
            self.answered(creation, at)?;
        }
        Ok(())
    }

    fn cut_zeros(&mut self, creation: &mut Creation, at: usize, slot: usize) -> Checked {
        let Pair { slots, record, .. } = &creation.pairs[at];
        let tear = zeros_tear(&mut self.run.rng, slots[slot].len(), HEADER + record.len());
        let was_whole = creation.held[at][slot].whole().is_some();
        creation.zero(at, slot, Some(tear));
        count_zeros(&mut self.run, at, Some(tear));
        count_zeroed(&mut self.run, creation, (at, slot), was_whole);
        if creation.is_accident(at, slot) {
            self.accidents[Accident::Zeroed as usize].add();
        }
        self.answered(creation, at)
    }

    /// The first write of every pair, or until that of this one is cut.
    fn write_pairs(&mut self, creation: &mut Creation, cut: Option<usize>) -> Result<Came, Mismatch> {
        for at in pairs_written(&mut self.run.rng, creation.pairs.len()) {
            self.planned(creation, at)?;
            let write = creation.first_write(&mut self.run.rng, at);
            if cut == Some(at) {
                return self.cut(creation, &write);
            }
            creation.write(&write, None);
            count_first(&mut self.run, &write, None);
            self.answered(creation, at)?;
        }
        Ok(Came::Whole)
    }

    fn cut(&mut self, creation: &mut Creation, write: &Write) -> Result<Came, Mismatch> {
        let tear = Tear::anywhere(&mut self.run.rng, write.new.len(), HEADER + write.record.len());
        creation.write(write, Some(tear));
        count_first(&mut self.run, write, Some(tear));
        count_cut(&mut self.run, creation, write, tear);
        if creation.is_accident(write.pair, write.slot) {
            let accident = if write.pair == 0 { Accident::FirstVolume } else { Accident::FirstPage };
            if self.accidents[accident as usize].add() {
                return Ok(Came::Accident);
            }
        }
        self.answered(creation, write.pair)?;
        Ok(if creation.is_whole() { Came::Whole } else { Came::Cut })
    }

    /// A pair's plan, under either mark.
    fn planned(&self, creation: &Creation, at: usize) -> Checked {
        let expected = creation.planned(at);
        for mark in [false, true] {
            let found = creation.planned_found(at, mark);
            self.run.check(PLANNED, found == expected, || Report {
                inputs: creation.fields(at),
                expected: planned_fields(&expected),
                found: planned_fields(&found),
            })?;
        }
        Ok(())
    }

    /// What is answered to the store. `at` is the pair that something was done to.
    fn answered(&self, creation: &Creation, at: usize) -> Checked {
        let (expected, found) = (creation.expected(), creation.found());
        let report = || Report {
            inputs: creation.fields(at),
            expected: expected.iter().flat_map(Answered::fields).collect(),
            found: found.fields(),
        };
        if let Some(promise) = creation.broken(&found.judged) {
            self.run.check(promise, false, report)?;
        }
        let other = expected.as_ref().is_some_and(|expected| *expected != found);
        self.run.check(ANSWERED, !other, report)
    }
}

/// Any cut of zeros; often all sectors but the first are written, so that a header stands over another payload.
fn zeros_tear(rng: &mut Rng, size: usize, end: usize) -> Tear {
    if rng.one_in(3) {
        Tear::Sectors(Tear::all_sectors(size) ^ 1)
    } else {
        Tear::anywhere(rng, size, end)
    }
}
