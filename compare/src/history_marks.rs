//! What the writes of a history do to the clean mark, and which of it a trial must meet.

use crate::answers::Left;
use crate::counts::{Answer, Function};
use crate::cut_outcomes::{change, CHANGES};
use crate::cut_records::clean_mark;
use crate::history::{History, Step};
use crate::history_pair::{Whole, Write};
use crate::part::Run;

/// The mark not set, and set.
const BEGINS: [Answer; 2] = [Answer::Decision("mark not set"), Answer::Decision("mark set")];
const WITH_STORE: &str = "history begins with a store";
const WITH_CREATION: &str = "history begins with a creation";

const FREE: &str = "write of pair 0 where no slot is named, finished";
const FREE_CUT: &str = "write of pair 0 where no slot is named, cut";
const HEALING: &str = "healing write of pair 0, finished";
const HEALING_CUT: &str = "healing write of pair 0, cut";

const AFTER: [&str; 2] = ["after the write, mark not set", "after the write, mark set"];
const NONE_NAMED: &str = "no slot is named";
const VOLUME_NAMED: &str = "pair 0 is named";
const PAGE_NAMED: &str = "a page is named";

/// Damaged and not to be healed: the older version's payload fails, or a torn header has the winner's previous checksum.
const RESTS: [&str; 2] = ["damaged slot that rests, mark not set", "damaged slot that rests, mark set"];
const OF_PAIR_0: &str = "of pair 0";
const OF_A_PAGE: &str = "of a page";
const RESTING: &[Answer] = &[Answer::Decision(OF_PAIR_0), Answer::Decision(OF_A_PAGE)];

/// Of histories that go on at random. Under a set mark no page is in flight.
pub const MARKS: &[Function] = &[
    Function::part(WITH_STORE, &BEGINS),
    Function::part(WITH_CREATION, &BEGINS),
    Function::part(FREE, CHANGES),
    Function::part(FREE_CUT, CHANGES),
    Function::part(HEALING, CHANGES),
    Function::part(HEALING_CUT, CHANGES),
    Function::part(
        AFTER[0],
        &[Answer::Decision(NONE_NAMED), Answer::Decision(VOLUME_NAMED), Answer::Decision(PAGE_NAMED)],
    ),
    Function::part(AFTER[1], &[Answer::Decision(NONE_NAMED), Answer::Decision(VOLUME_NAMED)]),
    Function::part(RESTS[0], RESTING),
    Function::part(RESTS[1], RESTING),
];

pub fn count_mark(run: &mut Run, history: &History, step: &Step, write: &Write) {
    let mut add = |name, answer| run.counts.add_part(name, Answer::Decision(answer));
    if write.pair == 0 {
        let written = match (step.heals, write.tear) {
            (0, None) => FREE,
            (0, Some(_)) => FREE_CUT,
            (_, None) => HEALING,
            (_, Some(_)) => HEALING_CUT,
        };
        add(written, change(step.marked, clean_mark(&Whole::of(&write.bytes).record)));
    }
    let mark = usize::from(history.mark());
    add(
        AFTER[mark],
        match history.named() {
            None => NONE_NAMED,
            Some(0) => VOLUME_NAMED,
            Some(_) => PAGE_NAMED,
        },
    );
    let rests = history.pairs.iter().map(|pair| matches!(pair.left, Left::OlderHeader | Left::OlderPayload));
    for at in rests.enumerate().filter_map(|(at, rests)| rests.then_some(at)) {
        add(RESTS[mark], if at == 0 { OF_PAIR_0 } else { OF_A_PAGE });
    }
}

pub fn count_beginning(run: &mut Run, history: &History, created: bool) {
    run.counts.add_part(if created { WITH_CREATION } else { WITH_STORE }, BEGINS[usize::from(history.mark())]);
}
