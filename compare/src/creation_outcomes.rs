//! What the creations of a trial come to, and which of it a trial must meet.

use crate::counts::{Answer, Function};
use crate::creation::Creation;
use crate::creation_slots::Held;
use crate::cut_outcomes::{operators_answer, COUNTS_OF_OPERATORS};
use crate::cut_store::{Pair, Write};
use crate::part::Run;
use crate::planning::{number_written, NUMBERS_WRITTEN};
use crate::sample::{HEADER, MAGIC};
use crate::tear::Tear;

const BEFORE: &str = "creation";
pub const BLANK: &str = "in blank slots";
pub const OVER: &str = "over a store, zeroed before";
pub const OVER_TORN: &str = "the same, with a torn page";
pub const AGAIN: &str = "begun anew after a cut";

const OPERATORS: &str = "creation, store of operators";
const NUMBER: &str = "first write, number";

/// Of pair 0 and of a page.
const WRITES: [&str; 2] = ["first write of pair 0", "first write of a page"];
const FINISHED: &str = "finished";
const BY_BYTES: &str = "cut by bytes";
const IN_MAGIC: &str = "cut after 1 to 7 bytes";
const BY_SECTORS: &str = "cut by sectors";
const OF_WRITES: &[Answer] =
    &[Answer::Decision(FINISHED), Answer::Decision(BY_BYTES), Answer::Decision(IN_MAGIC), Answer::Decision(BY_SECTORS)];

const CUTS: [&str; 2] = ["first write of pair 0, as cut", "first write of a page, as cut"];
const NOTHING: &str = "a blank slot";
const MAGIC_BROKEN: &str = "a broken magic";
const HEADER_TORN: &str = "a torn header";
const PAYLOAD_TORN: &str = "a torn payload";
const NEW_EARLY: &str = "whole before all its bytes";
const NEW: &str = "whole from all its bytes on";
const OF_CUTS: &[Answer] = &[
    Answer::Decision(NOTHING),
    Answer::Decision(MAGIC_BROKEN),
    Answer::Decision(HEADER_TORN),
    Answer::Decision(PAYLOAD_TORN),
    Answer::Decision(NEW_EARLY),
    Answer::Decision(NEW),
];

/// In one slot.
const ZEROS: [&str; 2] = ["zeros in pair 0", "zeros in a page"];
const ZEROED: [&str; 2] = ["zeros in pair 0, as cut", "zeros in a page, as cut"];
const KEPT: &str = "the header as it was";
/// The record of pair 0 lies in its header's sector.
const OF_ZEROED: &[Answer] = &[Answer::Decision(KEPT), Answer::Decision(NOTHING), Answer::Decision(MAGIC_BROKEN)];

const RECORDS: &str = "zeros in pair 0, cut: it has";
const BOTH: &str = "both records";
const NEWER: &str = "the newer record alone";
const OLDER: &str = "the older record alone";
const NONE: &str = "no record";

/// Of histories that begin at random.
pub const CREATIONS: &[Function] = &[
    Function::part(
        BEFORE,
        &[Answer::Decision(BLANK), Answer::Decision(OVER), Answer::Decision(OVER_TORN), Answer::Decision(AGAIN)],
    ),
    Function::part(OPERATORS, COUNTS_OF_OPERATORS),
    Function::part(NUMBER, NUMBERS_WRITTEN),
    Function::part(WRITES[0], OF_WRITES),
    Function::part(WRITES[1], OF_WRITES),
    Function::part(CUTS[0], OF_CUTS),
    Function::part(CUTS[1], OF_CUTS),
    Function::part(ZEROS[0], OF_WRITES),
    Function::part(ZEROS[1], OF_WRITES),
    Function::part(ZEROED[0], OF_ZEROED),
    Function::part(ZEROED[1], OF_ZEROED),
    Function::part(ZEROED[1], &[Answer::Decision(PAYLOAD_TORN)]),
    Function::part(
        RECORDS,
        &[Answer::Decision(BOTH), Answer::Decision(NEWER), Answer::Decision(OLDER), Answer::Decision(NONE)],
    ),
];

pub fn count_creation(run: &mut Run, pairs: &[Pair], before: &'static str) {
    run.counts.add_part(BEFORE, Answer::Decision(before));
    run.counts.add_part(OPERATORS, operators_answer(pairs.iter().map(|pair| pair.operator)));
}

fn how(tear: Option<Tear>) -> Answer {
    Answer::Decision(match tear {
        None => FINISHED,
        Some(Tear::Ascending(bytes)) if (1..MAGIC.end).contains(&bytes) => IN_MAGIC,
        Some(Tear::Ascending(_)) => BY_BYTES,
        Some(Tear::Sectors(_)) => BY_SECTORS,
    })
}

pub fn count_first(run: &mut Run, write: &Write, tear: Option<Tear>) {
    run.counts.add_part(WRITES[usize::from(write.pair > 0)], how(tear));
    run.counts.add_part(NUMBER, number_written(write.above_all));
}

/// What a cut of a first write left; an accident is counted as one.
pub fn count_cut(run: &mut Run, creation: &Creation, write: &Write, tear: Tear) {
    let left = match &creation.held[write.pair][write.slot] {
        Held::Accident => return,
        Held::Whole(_) if tear.reached(HEADER + write.record.len()) => NEW,
        Held::Whole(_) => NEW_EARLY,
        Held::TornPayload(_) => PAYLOAD_TORN,
        Held::BrokenMagic => MAGIC_BROKEN,
        Held::TornHeader(_) => HEADER_TORN,
        Held::Blank => NOTHING,
    };
    run.counts.add_part(CUTS[usize::from(write.pair > 0)], Answer::Decision(left));
}

pub fn count_zeros(run: &mut Run, at: usize, tear: Option<Tear>) {
    run.counts.add_part(ZEROS[usize::from(at > 0)], how(tear));
}

/// What a cut of zeros left in a slot, and of pair 0 by then; an accident is counted as one.
pub fn count_zeroed(run: &mut Run, creation: &Creation, (at, slot): (usize, usize), was_whole: bool) {
    let left = match creation.held[at][slot] {
        Held::Accident => return,
        Held::Blank => NOTHING,
        Held::BrokenMagic => MAGIC_BROKEN,
        Held::TornPayload(_) if was_whole => PAYLOAD_TORN,
        _ => KEPT,
    };
    run.counts.add_part(ZEROED[usize::from(at > 0)], Answer::Decision(left));
    if at == 0 {
        let records = creation.held[0].each_ref().map(|held| held.whole().is_some());
        let has = match records {
            [true, true] => BOTH,
            [false, false] => NONE,
            _ if records[creation.pairs[0].winner] => NEWER,
            _ => OLDER,
        };
        run.counts.add_part(RECORDS, Answer::Decision(has));
    }
}
