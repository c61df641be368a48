//! What the writes of a history leave, and which of it a trial must meet.

use crate::answers::Left;
use crate::counts::{Answer, Function};
use crate::cut_outcomes::{operators_answer, COUNTS_OF_OPERATORS, COUNTS_OF_PAIRS, OPERATORS};
use crate::history::{History, Step};
use crate::history_pair::{Header, Whole, Write};
use crate::part::Run;
use crate::planning::{number_written, NUMBERS_WRITTEN};
use crate::tear::Tear;

const FREE: &str = "write where no slot is named";
const HEALING: &str = "healing write";

const FINISHED: &str = "finished";
const NOTHING: &str = "nothing changed";
const AFTER: &str = "changed after what counts";
const OLDER_AGAIN: &str = "older slot stands again";
const OLDER_PAYLOAD: &str = "older payload, not healed";
const TORN_HEADER: &str = "torn header, in flight";
const OLDER_HEADER: &str = "OlderDamaged, not healed";
const TORN_PAYLOAD: &str = "torn payload, in flight";
const EARLIER: &str = "an earlier write whole";
const NEW_EARLY: &str = "new before all its bytes";
const NEW: &str = "new from all its bytes on";

/// Where no write is in flight, another write cannot make it whole; and a slot in flight is not an older one.
const OF_FREE: &[Answer] = &[
    Answer::Decision(FINISHED),
    Answer::Decision(NOTHING),
    Answer::Decision(AFTER),
    Answer::Decision(OLDER_AGAIN),
    Answer::Decision(OLDER_PAYLOAD),
    Answer::Decision(TORN_HEADER),
    Answer::Decision(OLDER_HEADER),
    Answer::Decision(TORN_PAYLOAD),
    Answer::Decision(NEW_EARLY),
    Answer::Decision(NEW),
];
const OF_HEALING: &[Answer] = &[
    Answer::Decision(FINISHED),
    Answer::Decision(NOTHING),
    Answer::Decision(OLDER_AGAIN),
    Answer::Decision(OLDER_PAYLOAD),
    Answer::Decision(TORN_HEADER),
    Answer::Decision(OLDER_HEADER),
    Answer::Decision(TORN_PAYLOAD),
    Answer::Decision(EARLIER),
    Answer::Decision(NEW_EARLY),
    Answer::Decision(NEW),
];

const FREE_CUT: &str = "write where no slot is named, cut";
const HEALING_CUT: &str = "healing write, cut";
const BY_BYTES: &str = "by bytes";
const BY_SECTORS: &str = "by sectors";
const CUTS: &[Answer] = &[Answer::Decision(BY_BYTES), Answer::Decision(BY_SECTORS)];

const FREE_OVER: &str = "write where no slot is named, over";
const HEALING_OVER: &str = "healing write, over";
const BLANK: &str = "a blank slot";
const OLDER: &str = "an older slot";
const DAMAGED: &str = "an older slot, damaged";
const A_HEADER: &str = "a torn header";
const A_PAYLOAD: &str = "a torn payload";

const ROW: &str = "healing writes in a row";
const READ: &str = "record read back";
const FINISHED_LAST: &str = "finished last";
const BEGUN: &str = "begun after it";

const PAIRS: &str = "store of pairs";
const MORE: Answer = Answer::Decision("more");
const ENDED: &str = "history ended";

const FREE_OF: &str = "write where no slot is named, store of operators";
const HEALING_OF: &str = "healing write, store of operators";
const FREE_NUMBER: &str = "write where no slot is named, number";
const HEALING_NUMBER: &str = "healing write, number";

pub const WHOLE: &str = "after its last write";
pub const USED_UP: &str = "no number or generation";

/// Of histories that go on at random.
pub const RANDOM: &[Function] = &[
    Function::new(FREE, OF_FREE),
    Function::new(HEALING, OF_HEALING),
    Function::part(FREE_CUT, CUTS),
    Function::part(HEALING_CUT, CUTS),
    Function::part(FREE_OVER, &[Answer::Decision(BLANK), Answer::Decision(OLDER), Answer::Decision(DAMAGED)]),
    Function::part(HEALING_OVER, &[Answer::Decision(A_HEADER), Answer::Decision(A_PAYLOAD)]),
    Function::part(ROW, &[Answer::Decision("1"), Answer::Decision("2"), Answer::Decision("3 or more")]),
    Function::part(READ, &[Answer::Decision(FINISHED_LAST), Answer::Decision(BEGUN)]),
    Function::part(PAIRS, &COUNTS_OF_PAIRS),
    Function::part(PAIRS, &[MORE]),
    Function::part(OPERATORS, COUNTS_OF_OPERATORS),
    Function::part(FREE_OF, COUNTS_OF_OPERATORS),
    Function::part(HEALING_OF, COUNTS_OF_OPERATORS),
    Function::part(FREE_NUMBER, NUMBERS_WRITTEN),
    Function::part(HEALING_NUMBER, NUMBERS_WRITTEN),
    Function::part(ENDED, &[Answer::Decision(WHOLE), Answer::Decision(USED_UP)]),
];

/// The function and the answer that a step is counted under; an older payload that passes is counted as an accident.
fn outcome(step: &Step, write: &Write) -> Option<(&'static str, Answer)> {
    let left = match (write.tear, step.left) {
        (None, _) => FINISHED,
        (Some(_), _) if step.untouched => NOTHING,
        (Some(_), Left::Old) if step.was.1 == Left::Old => AFTER,
        (Some(_), Left::Old) => OLDER_AGAIN,
        (Some(_), Left::OlderPayload) => OLDER_PAYLOAD,
        (Some(_), Left::OlderPasses) => return None,
        (Some(_), Left::TornHeader) => TORN_HEADER,
        (Some(_), Left::OlderHeader) => OLDER_HEADER,
        (Some(_), Left::TornPayload) => TORN_PAYLOAD,
        (Some(_), Left::New) if step.earlier => EARLIER,
        (Some(tear), Left::New) if tear.reached(write.end()) => NEW,
        (Some(_), Left::New) => NEW_EARLY,
    };
    Some((if step.heals == 0 { FREE } else { HEALING }, Answer::Decision(left)))
}

/// The operators of a store, and the number of a write beside those of all pairs that are not written.
fn count_number(run: &mut Run, history: &History, step: &Step, write: &Write) {
    let number = Whole::of(&write.bytes).number();
    let mut others = history.pairs.iter().enumerate().filter(|(at, _)| *at != write.pair);
    let above_all = others.all(|(_, pair)| pair.numbers().all(|other| other < number));
    let (of, numbered) = if step.heals == 0 { (FREE_OF, FREE_NUMBER) } else { (HEALING_OF, HEALING_NUMBER) };
    run.counts.add_part(of, operators(history));
    run.counts.add_part(numbered, number_written(above_all));
}

fn operators(history: &History) -> Answer {
    operators_answer(history.pairs.iter().map(|pair| pair.operator))
}

pub fn count_step(run: &mut Run, history: &History, step: &Step, write: &Write) {
    count_number(run, history, step, write);
    if let Some((function, answer)) = outcome(step, write) {
        run.counts.add(function, answer);
    }
    let mut add = |name, answer| run.counts.add_part(name, Answer::Decision(answer));
    let (cut, over) = if step.heals == 0 { (FREE_CUT, FREE_OVER) } else { (HEALING_CUT, HEALING_OVER) };
    match write.tear {
        None => (),
        Some(Tear::Ascending(_)) => add(cut, BY_BYTES),
        Some(Tear::Sectors(_)) => add(cut, BY_SECTORS),
    }
    add(
        over,
        match step.was {
            (Header::Blank, _) => BLANK,
            (_, Left::TornHeader) => A_HEADER,
            (_, Left::TornPayload) => A_PAYLOAD,
            (_, Left::Old) => OLDER,
            _ => DAMAGED,
        },
    );
    match step.heals {
        0 => (),
        1 => add(ROW, "1"),
        2 => add(ROW, "2"),
        _ => add(ROW, "3 or more"),
    }
    let pair = &history.pairs[write.pair];
    add(READ, if pair.current.record == pair.known[0] { FINISHED_LAST } else { BEGUN });
}

pub fn count_store(run: &mut Run, history: &History) {
    run.counts.add_part(PAIRS, COUNTS_OF_PAIRS.get(history.pairs.len() - 1).copied().unwrap_or(MORE));
    run.counts.add_part(OPERATORS, operators(history));
}

pub fn count_end(run: &mut Run, ended: &'static str) {
    run.counts.add_part(ENDED, Answer::Decision(ended));
}
