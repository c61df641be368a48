//! Tries the cut theorem: after any cut of a correct write of a sound store every record is read back as it was last
//! written, the store is writable, and nothing is healed but the written slot. Where the clean mark is set, pair 0 is
//! written. The library is tried, and the reference over a weak checksum, so that accidents are met.

use crate::answers::ReadBack;
use crate::counts::{Counts, Function};
use crate::cut_outcomes::{count_cut, count_write, function, outcome, ANY, ASCENDING, BY_SECTORS, OLDER_PASSING};
use crate::cut_store::{random_store, random_write, Pair, Write};
use crate::cutting::{untouched, Accident, Cutting};
use crate::implementation::{Implementation, Library};
use crate::part::{Checked, Fields, Report, Run};
use crate::rng::Rng;
use crate::tear::{Medium, Tear};
use crate::trials::{run_all, Accidents, Running};
use crate::value::hex;
use crate::weak::Weak;
use std::ops::RangeInclusive;
use std::process::ExitCode;

const UNTOUCHED: &str = "reading of a pair that is not written";

/// How many cuts a run makes.
pub struct Cuts {
    pub ascending: u64,
    pub sectors: u64,
    pub weak_ascending: u64,
    pub weak_sectors: u64,
}

/// Whose slots are cut, and what its checksum lets pass.
struct Subject {
    tried: &'static dyn Implementation,
    /// How many accidents there may be of each kind that the medium can leave.
    accidents: RangeInclusive<u64>,
    /// The kinds after which nothing is promised.
    left_out: &'static [Accident],
}

/// One torn slot in 2^32 passes a checksum by accident: where more do, the library's checksum or reader is wrong.
const LIBRARY: Subject = Subject { tried: &Library, accidents: 0..=2, left_out: Accident::ALL };

/// Of a weak checksum each kind is met.
const WEAK: Subject = Subject { tried: &Weak, accidents: 1..=u64::MAX, left_out: Accident::OF_THE_NEW };

struct Trial {
    title: &'static str,
    subject: Subject,
    medium: Medium,
    cuts: fn(&Cuts) -> u64,
    functions: &'static [&'static [Function]],
}

impl Trial {
    const fn new(
        title: &'static str,
        subject: Subject,
        medium: Medium,
        cuts: fn(&Cuts) -> u64,
        functions: &'static [&'static [Function]],
    ) -> Self {
        Self { title, subject, medium, cuts, functions }
    }
}

const TRIALS: &[Trial] = &[
    Trial::new("bytes in ascending order", LIBRARY, Medium::Ascending, |cuts| cuts.ascending, &[ANY, ASCENDING]),
    Trial::new("sectors in no fixed order", LIBRARY, Medium::Sectors, |cuts| cuts.sectors, &[ANY, BY_SECTORS]),
    Trial::new(
        "a weak checksum, bytes in ascending order",
        WEAK,
        Medium::Ascending,
        |cuts| cuts.weak_ascending,
        &[ANY, ASCENDING],
    ),
    Trial::new(
        "a weak checksum, sectors in no fixed order",
        WEAK,
        Medium::Sectors,
        |cuts| cuts.weak_sectors,
        &[ANY, BY_SECTORS, OLDER_PASSING],
    ),
];

/// One in so many of a trial's cuts must be of each of the four kinds of write.
const LEAST_SHARE: u64 = 100;

pub fn run(seed: u64, cuts: &Cuts) -> ExitCode {
    let trials = TRIALS.iter().map(|trial| Box::new(Trying::new(trial, seed, cuts)) as Box<dyn Running>);
    run_all("cuts", "cuts", seed, trials)
}

/// A trial under way.
struct Trying {
    trial: &'static Trial,
    /// How many cuts there must be.
    wanted: u64,
    run: Run,
    /// Of each kind, in its order.
    accidents: Vec<Accidents>,
}

impl Trying {
    fn new(trial: &'static Trial, seed: u64, cuts: &Cuts) -> Self {
        let functions = trial.functions.iter().copied().flatten();
        let run = Run { rng: Rng::new(seed), counts: Counts::new(functions) };
        let accidents = Accident::ALL.iter().map(|accident| accidents(*accident, trial)).collect();
        Self { trial, wanted: (trial.cuts)(cuts), run, accidents }
    }

    /// Their slots are the same at every cut, and so is what is read back; their verdicts are compared at each.
    fn untouched_pairs(&self, store: &[Pair], write: &Write) -> Checked {
        for (at, pair) in store.iter().enumerate() {
            if at == write.pair {
                continue;
            }
            let expected = untouched(pair);
            let found = ReadBack::found(self.trial.subject.tried, pair.kind, &pair.at, &pair.slots);
            self.run.check(UNTOUCHED, found == expected, || Report {
                inputs: pair_fields(at, pair),
                expected: expected.fields(),
                found: found.fields(),
            })?;
        }
        Ok(())
    }

    fn every_cut(&mut self, store: &[Pair], write: &Write) -> Checked {
        let mut cutting = Cutting::new(self.trial.subject.tried, store, write);
        let function = function(&store[write.pair]);
        for tear in self.trial.medium.tears(&mut self.run.rng, write.new.len()) {
            self.one_cut(&mut cutting, function, write, tear)?;
        }
        Ok(())
    }

    fn one_cut(&mut self, cutting: &mut Cutting, function: &'static str, write: &Write, tear: Tear) -> Checked {
        cutting.tear(tear);
        let left = cutting.left();
        if let Some(accident) = cutting.accident(left) {
            if self.accidents[accident as usize].add() {
                return Ok(());
            }
        }
        let expected = cutting.promised(left);
        let found = cutting.found(left);
        count_cut(&mut self.run, cutting, left, write, tear);
        self.run.case(function, outcome(cutting, left, write, tear), found == expected, || {
            let mut inputs = vec![("cut", tear.to_string())];
            inputs.extend(cutting.fields(left));
            Report { inputs, expected: expected.fields(), found: found.fields() }
        })
    }
}

impl Running for Trying {
    fn title(&self) -> &'static str {
        self.trial.title
    }

    /// Whole writes until there are as many cuts as wanted.
    fn run(&mut self) -> Checked {
        let Trial { subject: Subject { tried, .. }, medium, .. } = *self.trial;
        while self.total() < self.wanted {
            let mut store = random_store(&mut self.run.rng, tried, medium);
            let write = random_write(&mut self.run.rng, tried, medium, &mut store);
            self.untouched_pairs(&store, &write)?;
            self.every_cut(&store, &write)?;
            count_write(&mut self.run, &store, &write, medium);
        }
        Ok(())
    }

    fn print(&self) {
        self.run.counts.print();
        self.accidents.iter().for_each(Accidents::print);
    }

    fn faults(&self) -> Vec<String> {
        let mut faults = self.run.counts.faults(self.wanted / LEAST_SHARE);
        faults.extend(self.accidents.iter().filter_map(Accidents::fault));
        faults
    }

    fn total(&self) -> u64 {
        self.run.counts.total()
    }
}

/// None of one kind is met yet.
fn accidents(accident: Accident, trial: &Trial) -> Accidents {
    let possible = match accident {
        Accident::Header => trial.medium == Medium::Ascending,
        Accident::NewPayload => true,
        Accident::OldPayload => trial.medium == Medium::Sectors,
    };
    let allowed = if possible { trial.subject.accidents.clone() } else { 0..=0 };
    Accidents::new(accident.name(), trial.subject.left_out.contains(&accident), allowed)
}

fn pair_fields(at: usize, pair: &Pair) -> Fields {
    vec![("pair", at.to_string()), ("slot A", hex(&pair.slots[0])), ("slot B", hex(&pair.slots[1]))]
}
