//! What the cuts of a trial leave, and which of it a trial must meet.

use crate::answers::Left;
use crate::counts::{Answer, Function};
use crate::cut_records::Kind;
use crate::cut_store::{Pair, Write, MOST_OF_SMALL};
use crate::cutting::Cutting;
use crate::part::Run;
use crate::planning::{number_written, NUMBERS_WRITTEN};
use crate::sample::{HEADER, HEADER_CRC, SMALLEST_LOG2};
use crate::tear::{Medium, Tear, SECTOR};
use std::collections::BTreeSet;

const VOLUME_BLANK: &str = "cut of pair 0 over a blank slot";
const VOLUME_OLDER: &str = "cut of pair 0 over an older slot";
const PAGE_BLANK: &str = "cut of a page over a blank slot";
const PAGE_OLDER: &str = "cut of a page over an older slot";

const NOTHING: &str = "nothing changed";
const OLD: &str = "old, changed after its bytes";
const OLDER_PAYLOAD: &str = "older payload, not healed";
const OLDER_PASSES: &str = "older payload passes";
const TORN_HEADER: &str = "torn header, healed";
const OLDER_HEADER: &str = "OlderDamaged, not healed";
const TORN_PAYLOAD: &str = "torn payload, healed";
const NEW_EARLY: &str = "new before all its bytes";
const NEW: &str = "new from all its bytes on";
const NEW_END: &str = "new with all of the slot";

/// Over an older slot there is one more.
const BY_BYTES: &[Answer] = &[
    Answer::Decision(NOTHING),
    Answer::Decision(TORN_HEADER),
    Answer::Decision(TORN_PAYLOAD),
    Answer::Decision(NEW_EARLY),
    Answer::Decision(NEW),
    Answer::Decision(NEW_END),
];

/// A volume record lies in its header's sector.
const IN_A_SECTOR: &[Answer] =
    &[Answer::Decision(NOTHING), Answer::Decision(OLD), Answer::Decision(NEW), Answer::Decision(NEW_END)];

/// The same here.
const IN_SECTORS: &[Answer] = &[
    Answer::Decision(NOTHING),
    Answer::Decision(OLD),
    Answer::Decision(TORN_PAYLOAD),
    Answer::Decision(NEW_EARLY),
    Answer::Decision(NEW),
    Answer::Decision(NEW_END),
];

const MARK: &str = "clean mark handed";
const NOT_SET: &str = "not set";
const COUNTS: &str = "set, counts";
const NOT_COUNTED: &str = "set, pair 0 in flight";

/// What is left of pair 0, each by what the new record does to the clean mark.
const VOLUME_OLD: &str = "cut of pair 0, old";
const VOLUME_HEADER: &str = "cut of pair 0, torn header in flight";
const VOLUME_COUNTS_OLDER: &str = "cut of pair 0, torn header that counts as older";
const VOLUME_PAYLOAD: &str = "cut of pair 0, torn payload in flight";
const VOLUME_NEW: &str = "cut of pair 0, whole";

/// What a record of pair 0 does to the clean mark, or would do where it is not whole.
pub const CHANGES: &[Answer] =
    &[Answer::Decision(SETS), Answer::Decision(CLEARS), Answer::Decision(KEEPS_SET), Answer::Decision(KEEPS_CLEARED)];
const SETS: &str = "sets the mark";
const CLEARS: &str = "clears the mark";
const KEEPS_SET: &str = "keeps it set";
const KEEPS_CLEARED: &str = "keeps it cleared";

/// By the mark before the write, and that of the new record.
pub fn change(before: bool, after: bool) -> &'static str {
    match (before, after) {
        (false, true) => SETS,
        (true, false) => CLEARS,
        (true, true) => KEEPS_SET,
        (false, false) => KEEPS_CLEARED,
    }
}

const SLOT: &str = "slot written";
const SIZE: &str = "slot of bytes";
const PAIRS: &str = "store of pairs";
const NUMBER: &str = "number written";
const IN_FLIGHT: &str = "torn payload, healed: its number";

/// A torn header with the checksum that the winner has as its previous one: a first A has none before it.
const SAME_CHECKSUM: &str = "winner's previous checksum";
const FIRST: &str = "beside a first A, healed";
const LATER: &str = "beside a later one, not healed";

const SECTORS: &str = "sectors written";
const RECORD: &str = "record within";

/// How many operators the pairs of a store have.
pub const OPERATORS: &str = "store of operators";
pub const COUNTS_OF_OPERATORS: &[Answer] = &[ONE, SEVERAL];
const ONE: Answer = Answer::Decision("one");
const SEVERAL: Answer = Answer::Decision("several");

pub fn operators_answer(operators: impl Iterator<Item = u8>) -> Answer {
    let operators: BTreeSet<u8> = operators.collect();
    if operators.len() > 1 {
        SEVERAL
    } else {
        ONE
    }
}

/// Of every trial.
pub const ANY: &[Function] = &[
    Function::part(MARK, &[Answer::Decision(NOT_SET), Answer::Decision(COUNTS)]),
    Function::part(SLOT, &[Answer::Decision("A"), Answer::Decision("B")]),
    Function::part(PAIRS, &COUNTS_OF_PAIRS),
    Function::part(OPERATORS, COUNTS_OF_OPERATORS),
    Function::part(NUMBER, NUMBERS_WRITTEN),
    Function::part(IN_FLIGHT, NUMBERS_WRITTEN),
];

/// Where bytes are written in ascending order.
pub const ASCENDING: &[Function] = &[
    Function::new(VOLUME_BLANK, BY_BYTES),
    Function::new(VOLUME_OLDER, BY_BYTES),
    Function::new(VOLUME_OLDER, &[Answer::Decision(OLDER_HEADER)]),
    Function::new(PAGE_BLANK, BY_BYTES),
    Function::new(PAGE_OLDER, BY_BYTES),
    Function::new(PAGE_OLDER, &[Answer::Decision(OLDER_HEADER)]),
    Function::part(MARK, &[Answer::Decision(NOT_COUNTED)]),
    Function::part(VOLUME_OLD, CHANGES),
    Function::part(VOLUME_HEADER, CHANGES),
    Function::part(VOLUME_COUNTS_OLDER, CHANGES),
    Function::part(VOLUME_PAYLOAD, CHANGES),
    Function::part(VOLUME_NEW, CHANGES),
    Function::part(SIZE, &[SIZES[0], SIZES[1], SIZES[3]]),
    Function::part(SAME_CHECKSUM, &[Answer::Decision(FIRST), Answer::Decision(LATER)]),
];

/// Where sectors are written in no fixed order.
pub const BY_SECTORS: &[Function] = &[
    Function::new(VOLUME_BLANK, IN_A_SECTOR),
    Function::new(VOLUME_OLDER, IN_A_SECTOR),
    Function::new(PAGE_BLANK, IN_SECTORS),
    Function::new(PAGE_OLDER, IN_SECTORS),
    Function::new(PAGE_OLDER, &[Answer::Decision(OLDER_PAYLOAD)]),
    Function::part(VOLUME_OLD, CHANGES),
    Function::part(VOLUME_NEW, CHANGES),
    Function::part(SIZE, &SIZES),
    Function::part(SECTORS, &[Answer::Decision("none"), Answer::Decision("some"), Answer::Decision("all")]),
    Function::part(RECORD, &[Answer::Decision("one sector"), Answer::Decision("several sectors")]),
];

/// Besides, where accidents under the old header are met in earnest.
pub const OLDER_PASSING: &[Function] = &[Function::new(PAGE_OLDER, &[Answer::Decision(OLDER_PASSES)])];

/// How many pairs a store has, from 1 on.
pub const COUNTS_OF_PAIRS: [Answer; MOST_OF_SMALL] = [
    Answer::Decision("1"),
    Answer::Decision("2"),
    Answer::Decision("3"),
    Answer::Decision("4"),
    Answer::Decision("5"),
    Answer::Decision("6"),
    Answer::Decision("7"),
    Answer::Decision("8"),
];

/// The sizes of slots, from the smallest on.
const SIZES: [Answer; 8] = [
    Answer::Decision("512"),
    Answer::Decision("1,024"),
    Answer::Decision("2,048"),
    Answer::Decision("4,096"),
    Answer::Decision("8,192"),
    Answer::Decision("16,384"),
    Answer::Decision("32,768"),
    Answer::Decision("65,536"),
];

pub fn function(pair: &Pair) -> &'static str {
    match (pair.kind, pair.blank) {
        (Kind::Volume, true) => VOLUME_BLANK,
        (Kind::Volume, false) => VOLUME_OLDER,
        (Kind::Page { .. }, true) => PAGE_BLANK,
        (Kind::Page { .. }, false) => PAGE_OLDER,
    }
}

pub fn outcome(cutting: &Cutting, left: Left, write: &Write, tear: Tear) -> Answer {
    Answer::Decision(match left {
        Left::Old if cutting.is_untouched() => NOTHING,
        Left::Old => OLD,
        Left::OlderPayload => OLDER_PAYLOAD,
        Left::OlderPasses => OLDER_PASSES,
        Left::TornHeader => TORN_HEADER,
        Left::OlderHeader => OLDER_HEADER,
        Left::TornPayload => TORN_PAYLOAD,
        Left::New if !tear.reached(HEADER + write.record.len()) => NEW_EARLY,
        Left::New if !tear.reached(write.new.len()) => NEW,
        Left::New => NEW_END,
    })
}

/// What is left of a write of pair 0, whose record lies in its header's sector.
fn volume_left(left: Left) -> &'static str {
    match left {
        Left::Old => VOLUME_OLD,
        Left::OlderPayload => OLDER_PAYLOAD,
        Left::OlderPasses => OLDER_PASSES,
        Left::TornHeader => VOLUME_HEADER,
        Left::OlderHeader => VOLUME_COUNTS_OLDER,
        Left::TornPayload => VOLUME_PAYLOAD,
        Left::New => VOLUME_NEW,
    }
}

pub fn count_cut(run: &mut Run, cutting: &Cutting, left: Left, write: &Write, tear: Tear) {
    if left == Left::TornPayload {
        run.counts.add_part(IN_FLIGHT, number_written(write.above_all));
    }
    let mut add = |name, answer| run.counts.add_part(name, Answer::Decision(answer));
    add(
        MARK,
        match (cutting.mark(left), cutting.counts(left)) {
            (false, _) => NOT_SET,
            (true, true) => COUNTS,
            (true, false) => NOT_COUNTED,
        },
    );
    if write.pair == 0 {
        add(volume_left(left), change(write.marked, write.mark));
    }
    match tear {
        Tear::Sectors(0) => add(SECTORS, "none"),
        Tear::Sectors(_) if tear.reached(write.new.len()) => add(SECTORS, "all"),
        Tear::Sectors(_) => add(SECTORS, "some"),
        Tear::Ascending(_) if write.same_checksum => match left {
            // The header shows the new checksum once all of that is written.
            Left::TornHeader if tear.reached(HEADER_CRC.end) => add(SAME_CHECKSUM, FIRST),
            Left::OlderHeader => add(SAME_CHECKSUM, LATER),
            _ => (),
        },
        Tear::Ascending(_) => (),
    }
}

pub fn count_write(run: &mut Run, store: &[Pair], write: &Write, medium: Medium) {
    let log2 = write.new.len().ilog2() as usize;
    run.counts.add_part(SIZE, SIZES[log2 - SMALLEST_LOG2 as usize]);
    run.counts.add_part(SLOT, Answer::Decision(["A", "B"][write.slot]));
    run.counts.add_part(PAIRS, COUNTS_OF_PAIRS[store.len() - 1]);
    run.counts.add_part(OPERATORS, operators_answer(store.iter().map(|pair| pair.operator)));
    run.counts.add_part(NUMBER, number_written(write.above_all));
    if medium == Medium::Sectors {
        let within = if HEADER + write.record.len() <= SECTOR { "one sector" } else { "several sectors" };
        run.counts.add_part(RECORD, Answer::Decision(within));
    }
}
