//! Single faults, by the place that refuses them.

use crate::counts::Answer;
use crate::outcome::{refusal, Expected};
use crate::part::Run;
use crate::rng::Rng;

/// A change of an acceptable input that one check refuses.
pub struct Fault<C: 'static> {
    pub place: &'static str,
    pub refusal: u32,
    pub make: fn(&mut C, &mut Rng),
}

/// The places of all faults, as answers that a run must meet.
pub const fn places<C, const N: usize>(faults: &[Fault<C>]) -> [Answer; N] {
    assert!(faults.len() == N);
    let mut places = [Answer::Done; N];
    let mut at = 0;
    while at < N {
        places[at] = Answer::Decision(faults[at].place);
        at += 1;
    }
    places
}

impl<C> Fault<C> {
    pub const fn new(place: &'static str, refusal: u32, make: fn(&mut C, &mut Rng)) -> Self {
        Self { place, refusal, make }
    }

    /// Counts a case with this fault alone under the part `name`. The reference refuses it by the fault's number.
    pub fn count<T>(&self, run: &mut Run, name: &'static str, expected: &Expected<T>) {
        let found = refusal(expected);
        assert!(found == self.refusal, "{name}: the reference answers {found} to the fault '{}'", self.place);
        run.counts.add_part(name, Answer::Decision(self.place));
    }
}
