//! Compares the functions on table entries with the reference's meta2.rs.

use crate::counts::{Answer, Function};
use crate::entries_sweep::sweep;
use crate::entry_faults::{set_some_number, FAULTS};
use crate::entry_sample::{accepted, any_entry, any_limits, near_blocks, Case, EDGES};
use crate::ffi_table::{self as ffi, Entry, Limits};
use crate::lent::{Lent, LentCell};
use crate::meta_reference::{Names, NO_NAME};
use crate::outcome::{answer, count_other, filled, kept, refusal, Call, Expected};
use crate::page_sample::ENTRY;
use crate::part::{number, Checked, Fields, Part, Run};
use crate::places::places;
use crate::rng::Rng;
use crate::table_reference as reference;

const READ: &str = "sio_read_entry";
const WRITE: &str = "sio_write_entry";
const CHECK: &str = "sio_check_entry";
const TO_RAW: &str = "sio_entry_to_raw";
const NAME: &str = "sio_entry_name";
const NAME_AND_KIND: &str = "sio_entry_name_and_kind";
const SPAN: &str = "sio_reserved_span";
const CHECK_OTHER: &str = "sio_check_entry: the Rust's other answer";
const TO_RAW_OTHER: &str = "sio_entry_to_raw: the Rust's other answer";
const NAME_OTHER: &str = "sio_entry_name: the Rust's other answer";
const NAME_AND_KIND_OTHER: &str = "sio_entry_name_and_kind: the Rust's other answer";
pub const PLACE: &str = "sio_check_entry: refused for";

const WHOLE: &[Answer] = &[Answer::Done, Answer::Refusal(11)];
/// The refusals up to that of the name, then what is answered after it.
const CHECKS: &[Answer] = &[
    Answer::Refusal(11),
    Answer::Refusal(21),
    Answer::Refusal(32),
    Answer::Refusal(33),
    Answer::Refusal(34),
    Answer::Refusal(35),
    Answer::Done,
    Answer::Refusal(13),
    Answer::Refusal(36),
    Answer::Refusal(37),
    Answer::Refusal(38),
    Answer::Refusal(39),
    Answer::Refusal(40),
    Answer::Refusal(41),
    Answer::Refusal(42),
];
/// What the Rust answers of an entry whose name is not printable.
const OTHER_CHECKS: &[Answer] = CHECKS.split_at(6).1;
const OTHER_NAMES: &[Answer] = &[Answer::Done];
const NAMES: &[Answer] = &[Answer::Decision("a name"), Answer::Decision("no name"), Answer::Refusal(11)];
const KINDS: &[Answer] = &[
    Answer::Decision("append"),
    Answer::Decision("page"),
    Answer::Decision("slot"),
    Answer::Decision("no name or kind"),
    Answer::Refusal(11),
];
const SPANS: &[Answer] = &[Answer::Decision("a span"), Answer::Decision("nothing left"), Answer::Refusal(11)];

const PLACES: [Answer; FAULTS.len()] = places(FAULTS);

pub const PART: Part = Part {
    functions: &[
        Function::new(READ, WHOLE),
        Function::new(WRITE, WHOLE),
        Function::new(CHECK, CHECKS),
        Function::new(TO_RAW, CHECKS),
        Function::new(NAME, NAMES),
        Function::new(NAME_AND_KIND, KINDS),
        Function::new(SPAN, SPANS),
        Function::part(CHECK_OTHER, OTHER_CHECKS),
        Function::part(TO_RAW_OTHER, OTHER_CHECKS),
        Function::part(NAME_OTHER, OTHER_NAMES),
        Function::part(NAME_AND_KIND_OTHER, OTHER_NAMES),
        Function::part(PLACE, &PLACES),
    ],
    sweep,
    round,
};

fn round(run: &mut Run) -> Checked {
    let rng = &mut run.rng;
    let case = random_case(rng);
    let mut entry = reference::written_entry(&case.entry).to_vec();
    if rng.one_in(16) {
        rng.fill(&mut entry);
    }
    if rng.one_in(4) {
        rng.fill(&mut entry[38..40]);
    }
    match rng.below(16) {
        0 => entry.truncate(rng.below(ENTRY)),
        1 => entry.truncate(ENTRY - 1),
        2 => entry.resize(ENTRY + 1 + rng.below(2 * ENTRY), 0x61),
        _ => (),
    }
    compare_all(run, &entry, &case.limits)?;
    let len = run.rng.pick(&[ENTRY, ENTRY, ENTRY, 0, 1, 38, 40, ENTRY - 1, ENTRY + 1, 2 * ENTRY]);
    compare_write(run, len, &case.entry)
}

fn random_case(rng: &mut Rng) -> Case {
    let mut case = accepted(rng);
    match rng.below(8) {
        0 => (),
        1 => {
            for _ in 0..=rng.below(3) {
                rng.pick(EDGES)(&mut case);
            }
        }
        2 => set_some_number(rng, &mut case),
        3 => {
            let block = case.block();
            for number in [&mut case.entry.span_start, &mut case.entry.span_end] {
                *number = near_blocks(rng, block);
            }
            for number in [&mut case.limits.table_end, &mut case.limits.file_len] {
                *number = near_blocks(rng, block);
            }
        }
        4 => case = Case { entry: any_entry(rng), limits: any_limits(rng) },
        _ => {
            for _ in 0..=rng.below(3) {
                let fault = &FAULTS[rng.below(FAULTS.len())];
                (fault.make)(&mut case, rng);
            }
        }
    }
    case
}

/// Every function that reads an entry, on the same bytes.
pub fn compare_all(run: &mut Run, entry: &[u8], limits: &Limits) -> Checked {
    let lent = Lent::holding(&mut run.rng, entry);
    compare_read(run, &lent)?;
    compare_check(run, &lent, limits)?;
    compare_to_raw(run, &lent, limits)?;
    compare_name(run, &lent)?;
    compare_name_and_kind(run, &lent)?;
    compare_span(run, &lent, limits)
}

/// The entry as the reference writes it.
pub fn compare_case(run: &mut Run, case: &Case) -> Checked {
    compare_all(run, &reference::written_entry(&case.entry), &case.limits)
}

fn compare_read(run: &mut Run, entry: &Lent) -> Checked {
    let cell = LentCell::random(&mut run.rng);
    let name = LentCell::random(&mut run.rng);
    let expected = reference::read_entry(entry.expected());
    let found = ffi::read_entry(entry.cells(), cell.cell(), name.cell());
    Call::new(READ, &expected, found).compare(
        run,
        &[
            ("entry", entry),
            ("found cell", &filled(&cell, &expected, |read| read.0)),
            ("name cell", &filled(&name, &expected, |read| read.1)),
        ],
        Vec::new,
    )
}

fn compare_check(run: &mut Run, entry: &Lent, limits: &Limits) -> Checked {
    let cell = LentCell::random(&mut run.rng);
    let name = LentCell::random(&mut run.rng);
    let name_len = LentCell::random(&mut run.rng);
    let expected = reference::check_entry(entry.expected(), limits, Names::Printable);
    count_other(run, CHECK_OTHER, &expected, &reference::check_entry(entry.expected(), limits, Names::Any));
    let found = ffi::check_entry(entry.cells(), limits, cell.cell(), name.cell(), name_len.cell());
    Call::new(CHECK, &expected, found).compare(
        run,
        &[
            ("entry", entry),
            ("found cell", &filled(&cell, &expected, |checked| checked.0)),
            ("name cell", &filled(&name, &expected, |checked| checked.1 .0)),
            ("name_len cell", &filled(&name_len, &expected, |checked| checked.1 .1)),
        ],
        || limit_fields(limits),
    )
}

fn compare_to_raw(run: &mut Run, entry: &Lent, limits: &Limits) -> Checked {
    let raw = LentCell::random(&mut run.rng);
    let expected = reference::entry_to_raw(entry.expected(), limits, Names::Printable);
    count_other(run, TO_RAW_OTHER, &expected, &reference::entry_to_raw(entry.expected(), limits, Names::Any));
    let found = ffi::entry_to_raw(entry.cells(), limits, raw.cell());
    let filled = filled(&raw, &expected, |raw| *raw);
    let call = Call::new(TO_RAW, &expected, found);
    call.compare(run, &[("entry", entry), ("raw cell", &filled)], || limit_fields(limits))
}

/// The answer to a question that a whole entry has an answer to, also where that is none.
fn decision<T>(expected: &Expected<T>, name: fn(&T) -> &'static str) -> Answer {
    expected.as_ref().map_or_else(|_| answer(expected), |found| Answer::Decision(name(found)))
}

fn compare_name(run: &mut Run, entry: &Lent) -> Checked {
    let name = LentCell::random(&mut run.rng);
    let name_len = LentCell::random(&mut run.rng);
    let expected = reference::entry_name(entry.expected(), Names::Printable);
    count_other(run, NAME_OTHER, &expected, &reference::entry_name(entry.expected(), Names::Any));
    let found = ffi::entry_name(entry.cells(), name.cell(), name_len.cell());
    let answer = decision(&expected, |name| if *name == NO_NAME { "no name" } else { "a name" });
    Call { function: NAME, answer, expected: refusal(&expected), found }.compare(
        run,
        &[
            ("entry", entry),
            ("name cell", &filled(&name, &expected, |name| name.0)),
            ("name_len cell", &filled(&name_len, &expected, |name| name.1)),
        ],
        Vec::new,
    )
}

fn compare_name_and_kind(run: &mut Run, entry: &Lent) -> Checked {
    let kind = LentCell::random(&mut run.rng);
    let name = LentCell::random(&mut run.rng);
    let name_len = LentCell::random(&mut run.rng);
    let expected = reference::entry_name_and_kind(entry.expected(), Names::Printable);
    count_other(run, NAME_AND_KIND_OTHER, &expected, &reference::entry_name_and_kind(entry.expected(), Names::Any));
    let found = ffi::entry_name_and_kind(entry.cells(), kind.cell(), name.cell(), name_len.cell());
    let answer = decision(&expected, |found| match found.0 {
        1 => "append",
        2 => "page",
        3 => "slot",
        _ => "no name or kind",
    });
    Call { function: NAME_AND_KIND, answer, expected: refusal(&expected), found }.compare(
        run,
        &[
            ("entry", entry),
            ("kind cell", &filled(&kind, &expected, |found| found.0)),
            ("name cell", &filled(&name, &expected, |found| found.1 .0)),
            ("name_len cell", &filled(&name_len, &expected, |found| found.1 .1)),
        ],
        Vec::new,
    )
}

pub fn compare_span(run: &mut Run, entry: &Lent, limits: &Limits) -> Checked {
    let span = LentCell::random(&mut run.rng);
    let expected = reference::reserved_span(entry.expected(), limits);
    let found = ffi::reserved_span(entry.cells(), limits, span.cell());
    let answer = decision(&expected, |span| if *span == [0, 0] { "nothing left" } else { "a span" });
    let filled = filled(&span, &expected, |span| *span);
    let call = Call { function: SPAN, answer, expected: refusal(&expected), found };
    call.compare(run, &[("entry", entry), ("span cell", &filled)], || limit_fields(limits))
}

fn limit_fields(limits: &Limits) -> Fields {
    vec![
        ("log2_block", number(limits.log2_block)),
        ("table_end", number(limits.table_end)),
        ("file_len", number(limits.file_len)),
        ("page_meta_seq", number(limits.page_meta_seq)),
    ]
}

pub fn compare_write(run: &mut Run, len: usize, entry: &Entry) -> Checked {
    let mut bytes = Lent::random(&mut run.rng, len);
    let name = LentCell::holding(&mut run.rng, entry.name);
    let written = LentCell::random(&mut run.rng);
    let expected = reference::write_entry(bytes.expected_mut(), entry);
    let found = ffi::write_entry(bytes.cells(), entry, name.cell(), written.cell());
    Call::new(WRITE, &expected, found).compare(
        run,
        &[("bytes", &bytes), ("name cell", &kept(&name)), ("written cell", &filled(&written, &expected, |len| *len))],
        || entry_fields(entry),
    )
}

fn entry_fields(entry: &Entry) -> Fields {
    vec![
        ("seq", number(entry.seq)),
        ("kind", number(entry.kind)),
        ("state", number(entry.state)),
        ("flags", number(entry.flags)),
        ("compat_flags", number(entry.compat_flags)),
        ("tag", number(entry.tag)),
        ("extent_count", number(entry.extent_count)),
        ("header_a", number(entry.header_a)),
        ("header_b", number(entry.header_b)),
        ("data_size", number(entry.data_size)),
        ("capacity", number(entry.capacity)),
        ("span_start", number(entry.span_start)),
        ("span_end", number(entry.span_end)),
        ("footprint_seq", number(entry.footprint_seq)),
    ]
}
