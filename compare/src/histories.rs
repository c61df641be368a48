//! Tries histories: any number of correct writes and healing writes, each of them finished or cut. Writes of pair 0 set the
//! clean mark and clear it, and while it is set no other pair is written. After each write every record that was finished
//! last is read back, or one begun after it, and the store is writable. The library is tried, and the reference over a weak
//! checksum, so that accidents are met.

use crate::counts::{Counts, Function};
use crate::creation_outcomes::CREATIONS;
use crate::history::History;
use crate::history_hosts::Hosts;
use crate::history_made::{made_histories, MADE};
use crate::history_marks::{count_beginning, count_mark, MARKS};
use crate::history_outcomes::{count_end, count_step, count_store, RANDOM, USED_UP, WHOLE};
use crate::history_pair::Accident;
use crate::history_steps::{Next, Steps};
use crate::history_writes::random_store;
use crate::implementation::{Implementation, Library};
use crate::part::{Checked, Run};
use crate::rng::Rng;
use crate::trials::{run_all, Accidents, Running};
use crate::weak::Weak;
use std::ops::RangeInclusive;
use std::process::ExitCode;

/// How many writes a run makes at random, over a weak checksum, and in histories made on purpose.
pub struct Histories {
    pub random: u64,
    pub weak: u64,
    pub made: u64,
}

const MOST_WRITES: usize = 40;

/// One in so many random writes must heal.
const RANDOM_SHARE: u64 = 10;
/// To each of the histories made on purpose one in so many of their writes must come.
const MADE_SHARE: u64 = 250;

/// One in so many histories begins with a creation.
const CREATED_SHARE: usize = 4;

const ANY_NUMBER: RangeInclusive<u64> = 0..=u64::MAX;
const SOME: RangeInclusive<u64> = 1..=u64::MAX;

/// One torn slot in 2^32 passes a checksum by accident: where more do, the library's checksum or reader is wrong.
const BY_CHANCE: RangeInclusive<u64> = 0..=2;

pub fn run(seed: u64, histories: &Histories) -> ExitCode {
    let library = Trial::random(
        "writes and healing writes, finished and cut",
        histories.random,
        steps(seed, &Library, &[RANDOM, MARKS, CREATIONS], BY_CHANCE, ANY_NUMBER),
    );
    let weak = Trial::random(
        "the same over a weak checksum",
        histories.weak,
        steps(seed, &Weak, &[RANDOM, MARKS, CREATIONS], SOME, SOME),
    );
    let made = Trial {
        title: "histories made on purpose",
        wanted: histories.made,
        share: MADE_SHARE,
        steps: steps(seed, &Library, &[MADE], BY_CHANCE, SOME),
        history: made_histories,
    };
    let hosts = Hosts::new(Rng::new(seed));
    let trials: [Box<dyn Running>; 4] = [Box::new(library), Box::new(weak), Box::new(made), Box::new(hosts)];
    run_all("histories", "writes", seed, trials)
}

/// None is taken yet. A header of a write that was cut stands again where its first byte is written again: that needs no
/// checksum that passes by chance.
fn steps(
    seed: u64,
    tried: &'static dyn Implementation,
    functions: &[&[Function]],
    by_chance: RangeInclusive<u64>,
    again: RangeInclusive<u64>,
) -> Steps {
    let run = Run { rng: Rng::new(seed), counts: Counts::new(functions.iter().copied().flatten()) };
    let accidents = Accident::ALL.iter().map(|accident| {
        let allowed = if *accident == Accident::TornAgain { &again } else { &by_chance };
        Accidents::new(accident.name(), !accident.is_harmless(), allowed.clone())
    });
    Steps { run, tried, taken: 0, accidents: accidents.collect() }
}

fn random_history(steps: &mut Steps) -> Checked {
    let created = steps.run.rng.one_in(CREATED_SHARE);
    let store = if created { steps.created()? } else { Some(random_store(&mut steps.run.rng, steps.tried)) };
    let Some(store) = store else { return Ok(()) };
    let mut history = History::new(steps.tried, store);
    count_store(&mut steps.run, &history);
    count_beginning(&mut steps.run, &history, created);
    steps.every_pair(&history)?;
    let mut ended = WHOLE;
    for _ in 0..1 + steps.run.rng.below(MOST_WRITES) {
        match steps.random(&mut history)? {
            Next::Step(write, step) => {
                count_step(&mut steps.run, &history, &step, &write);
                count_mark(&mut steps.run, &history, &step, &write);
            }
            Next::Accident => return Ok(()),
            Next::UsedUp => {
                ended = USED_UP;
                break;
            }
        }
    }
    count_end(&mut steps.run, ended);
    steps.every_pair(&history)
}

struct Trial {
    title: &'static str,
    /// How many writes there must be.
    wanted: u64,
    /// One in so many of them must be of each function.
    share: u64,
    steps: Steps,
    /// Makes at least one history.
    history: fn(&mut Steps) -> Checked,
}

impl Trial {
    fn random(title: &'static str, wanted: u64, steps: Steps) -> Self {
        Self { title, wanted, share: RANDOM_SHARE, steps, history: random_history }
    }
}

impl Running for Trial {
    fn title(&self) -> &'static str {
        self.title
    }

    fn run(&mut self) -> Checked {
        while self.steps.taken < self.wanted {
            (self.history)(&mut self.steps)?;
        }
        Ok(())
    }

    fn print(&self) {
        self.steps.print();
    }

    fn faults(&self) -> Vec<String> {
        self.steps.faults(self.wanted / self.share)
    }

    fn total(&self) -> u64 {
        self.steps.taken
    }
}
