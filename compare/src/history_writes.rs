//! Random stores for a history, and random correct writes to them.

use crate::cut_store::{self, fitting_entries, store_of, MOST_OF_SMALL};
use crate::ffi_plan::Written;
use crate::history::History;
use crate::history_pair::{Pair, Write};
use crate::implementation::Implementation;
use crate::judge_reference::MOST_PAIRS;
use crate::plan_reference::Plan;
use crate::rng::Rng;
use crate::sample::{HEADER, SMALLEST_LOG2};
use crate::tear::Tear;

/// One in so many new volume records has its clean mark set.
const MARKED_SHARE: usize = 3;

/// Of few pairs for the most part, else of many with the smallest slots; its clean mark set or not.
pub fn random_store(rng: &mut Rng, tried: &dyn Implementation) -> Vec<cut_store::Pair> {
    let mark = rng.one_in(2);
    if rng.one_in(64) {
        let pairs = MOST_OF_SMALL + 1 + rng.below(MOST_PAIRS - MOST_OF_SMALL);
        return store_of(rng, tried, pairs, mark, |_| SMALLEST_LOG2);
    }
    let pairs = 1 + rng.below(MOST_OF_SMALL);
    store_of(rng, tried, pairs, mark, |rng| rng.pick(&[9, 9, 9, 9, 10, 10, 10, 10, 11, 11, 12]))
}

/// The only pair that may be written, else any, often the one that was written last.
pub fn random_pair(rng: &mut Rng, history: &History) -> usize {
    history.only_pair().unwrap_or_else(|| match rng.below(4) {
        0..=1 => history.last.0,
        _ => rng.below(history.pairs.len()),
    })
}

/// A write by the plan of its pair. Now and then it is cut so that the older header stands again, or has a checksum that
/// passes for the older one's.
pub fn random_write(rng: &mut Rng, history: &History, at: usize, plan: &Plan) -> Write {
    let pair = &history.pairs[at];
    let record = random_record(rng, pair);
    let written = random_written(rng, pair);
    if let Some(older) = pair.older.as_ref().filter(|older| pair.shows_but_for_a_byte(older) && rng.one_in(4)) {
        return history.showing_again(at, plan, written, &record, older);
    }
    let mut write = if rng.one_in(16) {
        let previous = pair.current.previous();
        let write = history.with_checksum(at, plan, written, &record, (previous, u32::BITS));
        Write { same_checksum: true, ..write }
    } else {
        history.planned_write(at, plan, written, &record)
    };
    if !rng.one_in(3) {
        write.tear = Some(Tear::random(rng, write.bytes.len(), HEADER + record.len()));
    }
    write
}

/// One of the pair's, most often where a slot is healed, or a new one.
fn random_record(rng: &mut Rng, pair: &Pair) -> Vec<u8> {
    let again = match rng.below(if pair.is_named() { 6 } else { 12 }) {
        0..=2 => Some(&pair.current),
        3 => pair.older.as_ref(),
        4 => pair.begun.last(),
        _ => None,
    };
    again.map(|whole| whole.record.clone()).unwrap_or_else(|| {
        let clean = rng.one_in(MARKED_SHARE);
        new_record(rng, pair, clean)
    })
}

/// A record that follows the winner's; a volume record has this clean mark.
pub fn new_record(rng: &mut Rng, pair: &Pair, clean: bool) -> Vec<u8> {
    let fit = fitting_entries(pair.slots[0].len());
    pair.kind.record(rng, fit, Some(&pair.current.record), clean)
}

/// Those of the last write to the slot or of the winner, or others.
fn random_written(rng: &mut Rng, pair: &Pair) -> Written {
    match rng.below(4) {
        0 => pair.begun.last().unwrap_or(&pair.current).written(),
        1 => pair.current.written(),
        _ => new_written(rng),
    }
}

pub fn new_written(rng: &mut Rng) -> Written {
    Written { owner_generation: rng.any(), compat_flags: rng.any() as u32 }
}
