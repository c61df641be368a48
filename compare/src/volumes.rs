//! Compares the volume record, its part of both formats and the place of the table with the reference's meta.rs and
//! meta2.rs.

use crate::counts::{Answer, Function};
use crate::ffi_volume::{self as ffi, Base, Geometry, Volume};
use crate::lent::{Lent, LentCell};
use crate::meta_reference as reference;
use crate::outcome::{filled, Call};
use crate::part::{number, Checked, Fields, Part, Run};
use crate::places::{places, Fault};
use crate::rng::Rng;
use crate::stored::flip_in;
use crate::volume_sample::{
    any_base, any_volume, base_record_of, random_base, random_volume, record_of, BASE, BASE_FAULTS, LOG2S_ABOVE,
    LOG2S_BELOW, MOST_PAGES, RECORD, RECORD_FAULTS,
};
use crate::volumes_sweep::sweep;

const DECODE: &str = "sio_volume_decode";
const ENCODE: &str = "sio_volume_encode";
const BASE_DECODE: &str = "sio_volume_base_decode";
const BASE_ENCODE: &str = "sio_volume_base_encode";
const ENTRIES_PER_PAGE: &str = "sio_entries_per_page";
const TABLE_END: &str = "sio_table_end";
const CHECK_FILE_LEN: &str = "sio_check_file_len";
pub const PLACE: &str = "sio_volume_decode: refused for";
pub const BASE_PLACE: &str = "sio_volume_base_decode: refused for";

const RECORD_ANSWERS: &[Answer] = &[
    Answer::Done,
    Answer::Refusal(11),
    Answer::Refusal(13),
    Answer::Refusal(20),
    Answer::Refusal(21),
    Answer::Refusal(22),
    Answer::Refusal(23),
    Answer::Refusal(24),
    Answer::Refusal(25),
    Answer::Refusal(26),
    Answer::Refusal(27),
    Answer::Refusal(28),
];
const BASE_ANSWERS: &[Answer] = &[
    Answer::Done,
    Answer::Refusal(11),
    Answer::Refusal(13),
    Answer::Refusal(20),
    Answer::Refusal(22),
    Answer::Refusal(23),
    Answer::Refusal(24),
];
const WRITING: &[Answer] = &[Answer::Done, Answer::Refusal(11)];
const END: &[Answer] = &[Answer::Done, Answer::Refusal(23), Answer::Refusal(24)];
const FILE_LEN: &[Answer] = &[Answer::Done, Answer::Refusal(23), Answer::Refusal(24), Answer::Refusal(26)];

const BASE_PLACES: [Answer; BASE_FAULTS.len()] = places(BASE_FAULTS);
const RECORD_PLACES: [Answer; RECORD_FAULTS.len()] = places(RECORD_FAULTS);

pub const PART: Part = Part {
    functions: &[
        Function::new(DECODE, RECORD_ANSWERS),
        Function::new(ENCODE, WRITING),
        Function::new(BASE_DECODE, BASE_ANSWERS),
        Function::new(BASE_ENCODE, WRITING),
        Function::new(ENTRIES_PER_PAGE, &[Answer::Done]),
        Function::new(TABLE_END, END),
        Function::new(CHECK_FILE_LEN, FILE_LEN),
        Function::part(PLACE, &BASE_PLACES),
        Function::part(PLACE, &RECORD_PLACES),
        Function::part(BASE_PLACE, &BASE_PLACES),
    ],
    sweep,
    round,
};

/// All faults of a whole record.
pub fn record_faults() -> Vec<&'static Fault<Vec<u8>>> {
    BASE_FAULTS.iter().chain(RECORD_FAULTS).collect()
}

fn round(run: &mut Run) -> Checked {
    let rng = &mut run.rng;
    let mut record = record_of(&random_volume(rng));
    spoil(rng, &mut record, &record_faults());
    let mut base = base_record_of(&random_base(rng));
    let behind = rng.pick(&[0, 0, 1, 16, 80]);
    base.extend(rng.bytes(behind));
    let base_faults: Vec<_> = BASE_FAULTS.iter().collect();
    spoil(rng, &mut base, &base_faults);
    let volume = if rng.one_in(2) { random_volume(rng) } else { any_volume(rng) };
    let log2_table = rng.any() as u8;
    let at = random_geometry(rng);
    compare_decode(run, &record)?;
    compare_base_decode(run, &base)?;
    let len = random_len(&mut run.rng, RECORD);
    compare_encode(run, len, &volume)?;
    let len = random_len(&mut run.rng, BASE);
    let base = any_base(&mut run.rng);
    compare_base_encode(run, len, &base)?;
    compare_entries_per_page(run, log2_table)?;
    compare_table_end(run, &at)?;
    let file_len = random_file_len(&mut run.rng, &at);
    compare_file_len(run, &at, file_len)
}

/// Leaves a record as it is, changes it by faults or in some bits, or replaces it.
fn spoil(rng: &mut Rng, record: &mut Vec<u8>, faults: &[&Fault<Vec<u8>>]) {
    match rng.below(8) {
        0 => (),
        1 => *record = rng.bytes(record.len()),
        2 => {
            for _ in 0..=rng.below(3) {
                let all = 0..record.len();
                flip_in(rng, record, all);
            }
        }
        _ => {
            for _ in 0..=rng.below(3) {
                (rng.pick(faults).make)(record, rng);
            }
        }
    }
}

/// Around what is needed.
fn random_len(rng: &mut Rng, needed: usize) -> usize {
    match rng.below(8) {
        0 => rng.below(needed),
        1 => needed - 1,
        2 => needed + 1 + rng.below(64),
        _ => needed,
    }
}

fn random_geometry(rng: &mut Rng) -> Geometry {
    let mut log2 = || match rng.below(16) {
        0 => rng.pick(&LOG2S_BELOW),
        1 => rng.pick(&LOG2S_ABOVE),
        _ => rng.between(12, 16) as u8,
    };
    let mut sizes = [log2(), log2()];
    if !rng.one_in(8) {
        sizes.sort_unstable();
    }
    let random = rng.next() as u32;
    let table_pages = rng.pick(&[0, 1, MOST_PAGES, MOST_PAGES + 1, u32::MAX, random]);
    Geometry { log2_block_size: sizes[0], log2_table_slot_size: sizes[1], table_pages }
}

/// Around the table's end, or anything.
fn random_file_len(rng: &mut Rng, at: &Geometry) -> u64 {
    let end = reference::table_end(at).unwrap_or(0);
    let near = [end, end.wrapping_sub(1), end + 1, end ^ 1 << 32, 0, u64::MAX];
    if rng.one_in(4) {
        rng.any()
    } else {
        rng.pick(&near)
    }
}

pub fn compare_decode(run: &mut Run, record: &[u8]) -> Checked {
    let bytes = Lent::holding(&mut run.rng, record);
    let cell = LentCell::random(&mut run.rng);
    let expected = reference::volume_decode(record);
    let found = ffi::volume_decode(bytes.cells(), cell.cell());
    let filled = filled(&cell, &expected, |numbers| *numbers);
    Call::new(DECODE, &expected, found).compare(run, &[("bytes", &bytes), ("found cell", &filled)], Vec::new)
}

pub fn compare_base_decode(run: &mut Run, record: &[u8]) -> Checked {
    let bytes = Lent::holding(&mut run.rng, record);
    let cell = LentCell::random(&mut run.rng);
    let expected = reference::volume_base_decode(record);
    let found = ffi::volume_base_decode(bytes.cells(), cell.cell());
    let filled = filled(&cell, &expected, |numbers| *numbers);
    Call::new(BASE_DECODE, &expected, found).compare(run, &[("bytes", &bytes), ("found cell", &filled)], Vec::new)
}

pub fn compare_encode(run: &mut Run, len: usize, volume: &Volume) -> Checked {
    let mut bytes = Lent::random(&mut run.rng, len);
    let written = LentCell::random(&mut run.rng);
    let expected = reference::volume_encode(bytes.expected_mut(), volume);
    let found = ffi::volume_encode(bytes.cells(), volume, written.cell());
    let filled = filled(&written, &expected, |len| *len);
    Call::new(ENCODE, &expected, found).compare(run, &[("bytes", &bytes), ("written cell", &filled)], || {
        let mut numbers = base_fields(&volume.base);
        numbers.extend([
            ("table_pages", number(volume.table_pages)),
            ("entries_per_page", number(volume.entries_per_page)),
            ("clean_close", number(volume.clean_close)),
            ("flags", number(volume.flags)),
        ]);
        numbers
    })
}

pub fn compare_base_encode(run: &mut Run, len: usize, base: &Base) -> Checked {
    let mut bytes = Lent::random(&mut run.rng, len);
    let written = LentCell::random(&mut run.rng);
    let expected = reference::volume_base_encode(bytes.expected_mut(), base);
    let found = ffi::volume_base_encode(bytes.cells(), base, written.cell());
    let filled = filled(&written, &expected, |len| *len);
    let call = Call::new(BASE_ENCODE, &expected, found);
    call.compare(run, &[("bytes", &bytes), ("written cell", &filled)], || base_fields(base))
}

fn base_fields(base: &Base) -> Fields {
    vec![
        ("log2_block_size", number(base.log2_block_size)),
        ("log2_table_slot_size", number(base.log2_table_slot_size)),
        ("device_index", number(base.device_index)),
        ("owner_generation", number(base.owner_generation)),
        ("table_offset", number(base.table_offset)),
        ("created_unix_s", number(base.created_unix_s)),
        ("features", number(base.features)),
    ]
}

pub fn compare_entries_per_page(run: &mut Run, log2_table: u8) -> Checked {
    let expected = reference::entries_per_page(log2_table).into();
    let found = ffi::entries_per_page(log2_table).into();
    let call = Call { function: ENTRIES_PER_PAGE, answer: Answer::Done, expected, found };
    call.compare(run, &[], || vec![("log2_table", number(log2_table))])
}

pub fn compare_table_end(run: &mut Run, at: &Geometry) -> Checked {
    let end = LentCell::random(&mut run.rng);
    let expected = reference::table_end(at);
    let found = ffi::table_end(at, end.cell());
    let filled = filled(&end, &expected, |end| *end);
    Call::new(TABLE_END, &expected, found).compare(run, &[("end cell", &filled)], || geometry_fields(at))
}

pub fn compare_file_len(run: &mut Run, at: &Geometry, file_len: u64) -> Checked {
    let expected = reference::check_file_len(at, file_len);
    let found = ffi::check_file_len(at, file_len);
    Call::new(CHECK_FILE_LEN, &expected, found).compare(run, &[], || {
        let mut numbers = geometry_fields(at);
        numbers.push(("file_len", number(file_len)));
        numbers
    })
}

fn geometry_fields(at: &Geometry) -> Fields {
    vec![
        ("log2_block_size", number(at.log2_block_size)),
        ("log2_table_slot_size", number(at.log2_table_slot_size)),
        ("table_pages", number(at.table_pages)),
    ]
}
