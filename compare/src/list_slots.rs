//! The fixed list of slots and pairs.
//!
//! | NAME | INPUT | EXPECTED |
//! |---|---|---|
//! | enc | FIELDS, BUFFER, payload | refusal (1), where not refused header checksum (4) and SLOT |
//! | val | PLACE, SLOT | status (1), the nine numbers found (8 each) |
//! | fac | PLACE, SLOT | facts (1), the four numbers found (8 each) |
//! | frm | PLACE, SLOT | status (1), the part (34) |
//! | dec | SIDE of A, SIDE of B | refusal (1), where not refused the report (5) |
//!
//! The widths in bytes are in brackets.
//!
//! - FIELDS: volume0 (8), volume1 (8), object_id (8), generation (8), owner_generation (8), slot_offset (8), index (4),
//!   log2_slot_size (1), prev_header_crc32c (4), format_major (2), meta_seq (8), compat_flags (4).
//! - BUFFER: a length (2) and a byte (1); the buffer holds this byte everywhere before the call. At a refusal it and the
//!   checksum's place are as they were.
//! - PLACE: volume0 (8), volume1 (8), object_id (8), slot_offset (8), index (4), log2_slot_size (1), format_major (2),
//!   numbered (4).
//! - SLOT: a length (2), at most 1,024, and the first bytes of the slot; all others up to the length are 0.
//! - SIDE: status (4), generation (8), header_crc32c (4), prev_header_crc32c (4).
//!
//! A payload and a SLOT go to the end of their field.

use crate::faults::{spoil_header, spoil_payload, Fault};
use crate::ffi::{Identity, Side, Version};
use crate::list::List;
use crate::sample::{
    random_identity, random_version, Form, Sample, COUNT, FORMAT, GENERATION, HEADER, HEADER_LEN, INCOMPAT_FLAGS,
    INDEX, LOG2, MAGIC, NUMBER, OBJECT, OFFSET, PAYLOAD_LEN, RO_COMPAT_FLAGS, SMALLEST_LOG2, VOLUME, ZERO_79,
};
use crate::slot_reference;
use crate::value::Value;

const FILL: u8 = 0xa5;

const PAYLOAD: usize = 5;

/// Log2, length of the buffer, length of the payload, generation, format, number.
const ENCODINGS: [(u8, usize, usize, u64, u16, u64); 14] = [
    (8, 256, 0, 0, 0, 0),
    (17, 512, 0, 1, 1, 0),
    (64 + 9, 512, 0, 1, 1, 0),
    (9, 511, 385, 0, 0, 0),
    (9, 513, 0, 1, 1, 0),
    (9, 512, 385, 0, 0, 0),
    (9, 512, 384, 0, 3, 0),
    (9, 512, 1, 1, 0, 0),
    (9, 512, 1, u64::MAX, 3, 0),
    (9, 512, 1, 1, 1, 1),
    (9, 512, 5, 1, 1, 0),
    (9, 512, 0, u64::MAX, 2, u64::MAX),
    (9, 512, 384, 2, 2, 0),
    (10, 1024, 9, 1 << 32, 2, 1),
];

/// Format and whether it is numbered; how the slot is changed after it was written.
const READS: &[(u16, bool, Fault)] = &[
    // Valid
    (1, false, |_, _| ()),
    (2, true, |sample, _| sample.slot[300] = 1),
    (2, false, |sample, rng| {
        sample.set(RO_COMPAT_FLAGS, rng.next());
        sample.seal();
    }),
    (1, true, |sample, _| set_and_seal(sample, HEADER_LEN, 200)),
    // BadLength
    (1, false, |sample, _| sample.at.log2_slot_size = 64 + 9),
    (2, true, |sample, _| sample.slot.truncate(511)),
    // Blank
    (2, true, |sample, _| sample.slot[..HEADER].fill(0)),
    // BadMagic
    (2, true, |sample, rng| sample.flip_in(rng, MAGIC)),
    // BadHeaderCrc
    (2, true, spoil_header),
    (1, false, |sample, _| set_and_seal(sample, HEADER_LEN, 127)),
    (1, false, |sample, _| set_and_seal(sample, HEADER_LEN, 513)),
    (2, true, |sample, _| {
        sample.set(HEADER_LEN, 200);
        sample.seal_header_over(HEADER);
    }),
    // UnsupportedVersion
    (2, true, |sample, _| sample.at.format_major = 1),
    (1, false, |sample, _| {
        sample.at.format_major = 3;
        set_and_seal(sample, FORMAT, 3);
    }),
    // Incompatible
    (2, true, |sample, _| set_and_seal(sample, INCOMPAT_FLAGS, 0x8000_0001)),
    // Malformed
    (2, true, |sample, _| set_and_seal(sample, GENERATION, 0)),
    (2, true, |sample, _| set_and_seal(sample, COUNT, 3)),
    (2, true, |sample, _| set_and_seal(sample, INDEX, 2)),
    (2, true, |sample, _| set_and_seal(sample, ZERO_79, 1)),
    (2, true, |sample, _| set_and_seal(sample, NUMBER, 0)),
    (2, true, |sample, _| set_and_seal(sample, HEADER_LEN, 200)),
    (2, true, |sample, _| set_and_seal(sample, PAYLOAD_LEN, 385)),
    // Foreign
    (2, true, |sample, rng| {
        sample.flip_in(rng, VOLUME);
        sample.seal();
    }),
    // WrongObject, before the payload's length
    (2, true, |sample, rng| {
        sample.flip_in(rng, OBJECT);
        set_and_seal(sample, PAYLOAD_LEN, 385);
    }),
    // Misplaced
    (2, true, |sample, rng| {
        sample.flip_in(rng, OFFSET);
        sample.seal();
    }),
    (2, true, |sample, _| set_and_seal(sample, LOG2, 10)),
    // BadPayloadCrc
    (2, true, spoil_payload),
];

/// The reads that are listed with their facts and their part of a frame too.
const SHOWN_READS: [usize; 5] = [1, 6, 8, 14, 26];

const VALID: u32 = 12;

/// Status and generation of A and of B, and whether A and B record the other's checksum.
const PAIRS: [(u32, u64, u32, u64, bool, bool); 17] = [
    (2, 0, 2, 0, false, false),
    (VALID, 7, VALID, 7, true, true),
    (VALID, 2, VALID, 1, true, false),
    (VALID, 1, VALID, 2, false, true),
    (VALID, 6, VALID, 5, false, true),
    (VALID, 5, VALID, 6, true, false),
    (VALID, 3, VALID, 1, true, true),
    (VALID, 0, VALID, u64::MAX, true, true),
    (VALID, 9, 2, 9, false, false),
    (4, 9, VALID, 8, false, false),
    (VALID, 1, 11, 2, false, false),
    (VALID, 1, 0, 0, false, false),
    (3, 1, VALID, 2, false, true),
    (4, 1, 2, 1, false, false),
    (5, 1, VALID, 2, false, true),
    (VALID, 2, 6, 1, true, false),
    (5, 1, 13, 2, false, false),
];

pub fn fill(list: &mut List) {
    encodings(list);
    reads(list);
    pairs(list);
}

fn encodings(list: &mut List) {
    for (log2, len, payload_len, generation, format, meta_seq) in ENCODINGS {
        let at = random_identity(&mut list.rng, log2, format);
        let version = Version { generation, meta_seq, ..random_version(&mut list.rng) };
        let payload = list.random_bytes(payload_len);
        let mut slot = vec![FILL; len];
        let answer = slot_reference::encode(&mut slot, &at, &version, &payload);
        let input = [fields(&at, &version), (len as u16).packed(), vec![FILL], payload].concat();
        let mut expected = vec![answer.refusal as u8];
        if let Some(crc) = answer.header_crc32c {
            expected.extend(crc.packed());
            expected.extend(shortened(&slot));
        }
        list.line("enc", &input, &expected);
    }
}

fn fields(at: &Identity, version: &Version) -> Vec<u8> {
    [
        at.volume0.packed(),
        at.volume1.packed(),
        at.object_id.packed(),
        version.generation.packed(),
        version.owner_generation.packed(),
        at.slot_offset.packed(),
        at.index.packed(),
        at.log2_slot_size.packed(),
        version.prev_header_crc32c.packed(),
        at.format_major.packed(),
        version.meta_seq.packed(),
        version.compat_flags.packed(),
    ]
    .concat()
}

/// The length of a slot and its bytes up to the last that is not 0.
fn shortened(slot: &[u8]) -> Vec<u8> {
    let zeros = slot.iter().rev().take_while(|byte| **byte == 0).count();
    [&(slot.len() as u16).packed()[..], &slot[..slot.len() - zeros]].concat()
}

fn reads(list: &mut List) {
    for (case, (format, numbered, change)) in READS.iter().enumerate() {
        let form = Form { log2: SMALLEST_LOG2, format: *format, numbered: *numbered, payload_len: PAYLOAD };
        let mut sample = Sample::written(&mut list.rng, &form);
        change(&mut sample, &mut list.rng);
        let Sample { slot, at, numbered } = &sample;
        read_line(list, "val", &sample, slot_reference::validate(slot, at, *numbered));
        if SHOWN_READS.contains(&case) {
            read_line(list, "fac", &sample, slot_reference::header_facts(slot, at, *numbered));
            read_line(list, "frm", &sample, slot_reference::frame_slot(slot, at, *numbered));
        }
    }
}

fn set_and_seal(sample: &mut Sample, field: std::ops::Range<usize>, value: u64) {
    sample.set(field, value);
    sample.seal();
}

fn read_line<T: Value>(list: &mut List, name: &str, sample: &Sample, (result, found): (u32, T)) {
    let input = [place(sample), shortened(&sample.slot)].concat();
    let expected = [vec![result as u8], found.packed()].concat();
    list.line(name, &input, &expected);
}

fn place(sample: &Sample) -> Vec<u8> {
    let at = &sample.at;
    [
        at.volume0.packed(),
        at.volume1.packed(),
        at.object_id.packed(),
        at.slot_offset.packed(),
        at.index.packed(),
        at.log2_slot_size.packed(),
        at.format_major.packed(),
        sample.numbered.packed(),
    ]
    .concat()
}

fn pairs(list: &mut List) {
    for (a_status, a_generation, b_status, b_generation, a_links, b_links) in PAIRS {
        let [a_crc, b_crc, other] = [(); 3].map(|()| list.rng.next() as u32);
        let a_previous = if a_links { b_crc } else { other };
        let b_previous = if b_links { a_crc } else { other };
        let a = side(a_status, a_generation, a_crc, a_previous);
        let b = side(b_status, b_generation, b_crc, b_previous);
        let expected = match slot_reference::decide(&a, &b) {
            Some(report) => [vec![0], report.packed()].concat(),
            None => vec![10],
        };
        list.line("dec", &[packed_side(&a), packed_side(&b)].concat(), &expected);
    }
}

fn side(status: u32, generation: u64, header_crc32c: u32, prev_header_crc32c: u32) -> Side {
    Side { status, generation, header_crc32c, prev_header_crc32c }
}

fn packed_side(side: &Side) -> Vec<u8> {
    [side.status.packed(), side.generation.packed(), side.header_crc32c.packed(), side.prev_header_crc32c.packed()]
        .concat()
}
