//! Histories made on purpose: what random ones meet seldom or never.

use crate::answers::Left;
use crate::counts::{Answer, Function};
use crate::cut_records::Kind;
use crate::cut_store::store_of;
use crate::history::{History, Step};
use crate::history_pair::{Pair, Whole, Write};
use crate::history_steps::{Next, Steps};
use crate::history_writes::{new_record, new_written};
use crate::part::{Checked, Mismatch};
use crate::rng::Rng;
use crate::sample::HEADER;
use crate::tear::{Tear, SECTOR};

const OLDER_AGAIN: &str = "older slot that stands again";
const TORN_AGAIN: &str = "header of a cut write that stands again";
const ROW: &str = "healing writes in a row";
const BY_SECTORS: &str = "healing write cut by sectors";
const CLOSED: &str = "closed, opened, written, cut, healed, closed";
const OPENING: &str = "opening write cut, healing writes in a row";
const CLOSING: &str = "closing write cut, healing writes in a row";

const FOUR: Answer = Answer::Decision("4 cut and one finished");
const FORTY: Answer = Answer::Decision("40 cut and one finished");
const TORN: Answer = Answer::Decision("torn payload, in flight");
const EARLIER: Answer = Answer::Decision("an earlier write whole");
const NEW: Answer = Answer::Decision("new");

pub const MADE: &[Function] = &[
    Function::new(OLDER_AGAIN, &[Answer::Done]),
    Function::new(TORN_AGAIN, &[Answer::Done]),
    Function::new(ROW, &[FORTY]),
    Function::new(BY_SECTORS, &[TORN, EARLIER, NEW]),
    Function::new(CLOSED, &[Answer::Done]),
    Function::new(OPENING, &[FOUR]),
    Function::new(CLOSING, &[FOUR]),
];

const HEALS: usize = 40;
const VOLUME_HEALS: usize = 4;

/// How many random writes follow at most.
const MORE_WRITES: usize = 8;

/// Makes a history of one kind, and answers what it came to; `None` where it came to something else.
type Script = fn(&mut Steps, &mut History) -> Result<Option<Answer>, Mismatch>;

const SCRIPTS: &[(&str, Script)] = &[
    (OLDER_AGAIN, older_again),
    (TORN_AGAIN, torn_again),
    (ROW, row_of_heals),
    (BY_SECTORS, by_sectors),
    (CLOSED, closed_again),
    (OPENING, |steps, history| turned(steps, history, false)),
    (CLOSING, |steps, history| turned(steps, history, true)),
];

/// One history of each kind.
pub fn made_histories(steps: &mut Steps) -> Checked {
    for (name, script) in SCRIPTS {
        let rng = &mut steps.run.rng;
        let pairs = 2 + rng.below(3);
        let mark = rng.one_in(3);
        let store = store_of(rng, steps.tried, pairs, mark, |rng| rng.pick(&[9, 11, 12]));
        let mut history = History::new(steps.tried, store);
        if let Some(answer) = script(steps, &mut history)? {
            steps.run.counts.add(name, answer);
        }
    }
    Ok(())
}

/// A pair that may be written and is as wanted.
fn pair_where(rng: &mut Rng, history: &History, wanted: impl Fn(&Pair) -> bool) -> Option<usize> {
    let free = (0..history.pairs.len()).filter(|at| history.may_write(*at));
    let pairs: Vec<usize> = free.filter(|at| wanted(&history.pairs[*at])).collect();
    (!pairs.is_empty()).then(|| rng.pick(&pairs))
}

/// Writes a new record; `None` where nothing is left to write it with, or after an accident.
fn write_new(
    steps: &mut Steps,
    history: &mut History,
    at: usize,
    tear: Option<Tear>,
) -> Result<Option<Step>, Mismatch> {
    let mark = steps.run.rng.one_in(2);
    write_marked(steps, history, at, mark, tear)
}

/// The same; a volume record has this clean mark.
fn write_marked(
    steps: &mut Steps,
    history: &mut History,
    at: usize,
    mark: bool,
    tear: Option<Tear>,
) -> Result<Option<Step>, Mismatch> {
    let Ok(plan) = steps.plan(history, at)? else { return Ok(None) };
    let rng = &mut steps.run.rng;
    let record = new_record(rng, &history.pairs[at], mark);
    let write = history.planned_write(at, &plan, new_written(rng), &record);
    steps.write(history, &Write { tear, ..write })
}

/// Writes a new record, cut so that the header of `whole` may stand again; `None` as above.
fn write_again(steps: &mut Steps, history: &mut History, at: usize, whole: &Whole) -> Result<Option<Step>, Mismatch> {
    let Ok(plan) = steps.plan(history, at)? else { return Ok(None) };
    let rng = &mut steps.run.rng;
    let mark = rng.one_in(2);
    let record = new_record(rng, &history.pairs[at], mark);
    let write = history.showing_again(at, &plan, new_written(rng), &record, whole);
    steps.write(history, &write)
}

/// Random writes, as long as something is promised of them.
fn go_on(steps: &mut Steps, history: &mut History) -> Checked {
    for _ in 0..=steps.run.rng.below(MORE_WRITES) {
        if !matches!(steps.random(history)?, Next::Step(..)) {
            return Ok(());
        }
    }
    steps.every_pair(history)
}

/// A write over an older slot is cut after the first byte of its checksum, and so is the healing write, whose byte is the
/// older one's.
fn older_again(steps: &mut Steps, history: &mut History) -> Result<Option<Answer>, Mismatch> {
    let Some(at) = pair_where(&mut steps.run.rng, history, |pair| pair.older.is_some()) else { return Ok(None) };
    let Some(Step { left: Left::TornHeader, .. }) = write_new(steps, history, at, Some(Tear::IN_CHECKSUM))? else {
        return Ok(None);
    };
    let Some(older) = history.pairs[at].older.clone() else { return Ok(None) };
    let Some(step) = write_again(steps, history, at, &older)? else { return Ok(None) };
    go_on(steps, history)?;
    Ok((step.left == Left::Old).then_some(Answer::Done))
}

/// A write is cut in its payload, then two healing writes after the first byte of their checksum, the second one's the byte
/// that the first one's took the place of. After that nothing is promised.
fn torn_again(steps: &mut Steps, history: &mut History) -> Result<Option<Answer>, Mismatch> {
    let Some(at) = pair_where(&mut steps.run.rng, history, |_| true) else { return Ok(None) };
    let Some(Step { left: Left::TornPayload, .. }) = write_new(steps, history, at, Some(Tear::Ascending(HEADER)))?
    else {
        return Ok(None);
    };
    let Some(torn) = history.pairs[at].begun.last().cloned() else { return Ok(None) };
    let Some(Step { left: Left::TornHeader, .. }) = write_new(steps, history, at, Some(Tear::IN_CHECKSUM))? else {
        return Ok(None);
    };
    Ok(write_again(steps, history, at, &torn)?.is_none().then_some(Answer::Done))
}

/// In a header or at its end.
fn torn(rng: &mut Rng) -> Tear {
    Tear::Ascending(rng.pick(&[9, 10, 11, 12, 13, 28, 60, 90, 100, HEADER, HEADER]))
}

/// Many healing writes are cut, and one is finished.
fn row_of_heals(steps: &mut Steps, history: &mut History) -> Result<Option<Answer>, Mismatch> {
    let Some(at) = pair_where(&mut steps.run.rng, history, |_| true) else { return Ok(None) };
    // The first of them is torn, the others heal.
    for _ in 0..=HEALS {
        let tear = torn(&mut steps.run.rng);
        write_new(steps, history, at, Some(tear))?;
        if history.named() != Some(at) {
            return Ok(None);
        }
    }
    let finished = write_new(steps, history, at, None)?;
    go_on(steps, history)?;
    Ok(finished.filter(|step| step.heals == HEALS + 1).map(|_| FORTY))
}

/// In a store that is open the first sector alone arrives of a write of a page in several, and any of the healing write of
/// the same page.
fn by_sectors(steps: &mut Steps, history: &mut History) -> Result<Option<Answer>, Mismatch> {
    let long = |pair: &Pair| matches!(pair.kind, Kind::Page { .. }) && pair.slots[0].len() > SECTOR;
    write_marked(steps, history, 0, false, None)?;
    let Some(at) = pair_where(&mut steps.run.rng, history, long) else { return Ok(None) };
    let Some(Step { left: Left::TornPayload, .. }) = write_new(steps, history, at, Some(Tear::Sectors(1)))? else {
        return Ok(None);
    };
    let Some(torn) = history.pairs[at].begun.last().cloned() else { return Ok(None) };
    let Ok(plan) = steps.plan(history, at)? else { return Ok(None) };
    let rng = &mut steps.run.rng;
    let write = history.planned_write(at, &plan, new_written(rng), &torn.record);
    let all = Tear::all_sectors(write.bytes.len());
    let set = rng.pick(&[1, 2, all ^ 1, all ^ 1, all ^ 2, all]);
    let Some(step) = steps.write(history, &Write { tear: Some(Tear::Sectors(set)), ..write })? else { return Ok(None) };
    go_on(steps, history)?;
    Ok(match step.left {
        Left::TornPayload => Some(TORN),
        Left::New if step.earlier => Some(EARLIER),
        Left::New => Some(NEW),
        _ => None,
    })
}

/// The store is closed and opened, a page is written, and again by a write that is cut and healed, and the store is closed.
fn closed_again(steps: &mut Steps, history: &mut History) -> Result<Option<Answer>, Mismatch> {
    let page = 1 + steps.run.rng.below(history.pairs.len() - 1);
    let cut = Some(torn(&mut steps.run.rng));
    let writes = [
        (0, true, None),
        (0, false, None),
        (page, false, None),
        (page, false, cut),
        (page, false, None),
        (0, true, None),
    ];
    let mut heals = 0;
    for (at, mark, tear) in writes {
        let Some(step) = write_marked(steps, history, at, mark, tear)? else { return Ok(None) };
        heals += step.heals;
    }
    let closed = history.mark();
    go_on(steps, history)?;
    Ok((closed && heals == 1).then_some(Answer::Done))
}

/// The write that sets the mark, or clears it, is cut, and so are the writes that heal it, with any mark; one is finished.
fn turned(steps: &mut Steps, history: &mut History, mark: bool) -> Result<Option<Answer>, Mismatch> {
    write_marked(steps, history, 0, !mark, None)?;
    // The first of them is torn, the others heal.
    for heals in 0..=VOLUME_HEALS {
        let with = if heals == 0 { mark } else { steps.run.rng.one_in(2) };
        let tear = torn(&mut steps.run.rng);
        write_marked(steps, history, 0, with, Some(tear))?;
        if history.named() != Some(0) || history.mark() == mark {
            return Ok(None);
        }
    }
    let finished = write_marked(steps, history, 0, mark, None)?;
    let healed = finished.is_some_and(|step| step.heals == VOLUME_HEALS + 1) && history.mark() == mark;
    go_on(steps, history)?;
    Ok(healed.then_some(FOUR))
}
