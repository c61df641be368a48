//! Compares the encoding of slots with the reference's slot.rs.

use crate::counts::{Answer, Function};
use crate::faults::IMPOSSIBLE_LOG2S;
use crate::ffi::{self, Identity, Version};
use crate::lent::{Lent, LentCell};
use crate::part::{number, Checked, Fields, Part, Report, Run};
use crate::rng::Rng;
use crate::sample::{
    identity_fields, random_identity, random_log2, random_payload_len, random_version, HEADER, SMALLEST_LOG2,
};
use crate::slot_reference;

const ENCODE: &str = "sio_encode";

const ANSWERS: &[Answer] =
    &[Answer::Done, Answer::Refusal(1), Answer::Refusal(2), Answer::Refusal(3), Answer::Refusal(4), Answer::Refusal(5)];

pub const PART: Part = Part { functions: &[Function::new(ENCODE, ANSWERS)], sweep, round };

const GENERATIONS: [u64; 3] = [0, 1, u64::MAX];
const FORMATS: [u16; 6] = [0, 1, 2, 3, 0x101, 0x200];
const NUMBERS: [u64; 4] = [0, 1, 1 << 32, u64::MAX];

/// One call; the buffers have random content.
struct Call {
    at: Identity,
    version: Version,
    len: usize,
    payload_len: usize,
}

fn sweep(run: &mut Run) -> Checked {
    small_sizes(run)?;
    every_size(run)?;
    payload_lengths(run)
}

/// All rules kept and broken together, on both sides of the smallest size.
fn small_sizes(run: &mut Run) -> Checked {
    for log2 in [SMALLEST_LOG2 - 1, SMALLEST_LOG2] {
        for (len, payload_len) in lengths(log2) {
            for generation in GENERATIONS {
                for format in FORMATS {
                    for meta_seq in NUMBERS {
                        let version = Version { generation, meta_seq, ..random_version(&mut run.rng) };
                        let at = random_identity(&mut run.rng, log2, format);
                        compare(run, &Call { at, version, len, payload_len })?;
                    }
                }
            }
        }
    }
    Ok(())
}

/// Every size up to 2^20 bytes, and sizes that no memory holds.
fn every_size(run: &mut Run) -> Checked {
    for log2 in 0..=20 {
        for (len, payload_len) in lengths(log2) {
            for call in [plain(run, log2, 1, 0), plain(run, log2, 2, 7)] {
                compare(run, &Call { len, payload_len, ..call })?;
            }
        }
    }
    for log2 in 21..=255 {
        for len in [0, 1 << (log2 % 32).min(16), 1 << SMALLEST_LOG2] {
            let call = plain(run, log2, 1, 0);
            compare(run, &Call { len, payload_len: 0, ..call })?;
        }
    }
    Ok(())
}

/// Every length of a payload in the smallest slot, and some that are too long.
fn payload_lengths(run: &mut Run) -> Checked {
    let len = 1 << SMALLEST_LOG2;
    for payload_len in 0..=len + 1 {
        for call in [plain(run, SMALLEST_LOG2, 1, 0), plain(run, SMALLEST_LOG2, 2, 0)] {
            compare(run, &Call { len, payload_len, ..call })?;
        }
    }
    Ok(())
}

/// Nothing to refuse but what the size or the lengths, which are the caller's, give.
fn plain(run: &mut Run, log2: u8, format: u16, meta_seq: u64) -> Call {
    let generation = run.rng.any().max(1);
    let version = Version { generation, meta_seq, ..random_version(&mut run.rng) };
    Call { at: random_identity(&mut run.rng, log2, format), version, len: 0, payload_len: 0 }
}

/// Lengths of the buffer beside the slot size, and of the payload beside what fits.
fn lengths(log2: u8) -> Vec<(usize, usize)> {
    let size: usize = 1 << log2;
    let room = size.saturating_sub(HEADER);
    let mut lengths = Vec::new();
    for len in [size, size - 1, size + 1, 0] {
        for payload_len in [0, 1, room.saturating_sub(1), room, room + 1, size, size + 1] {
            lengths.push((len, payload_len));
        }
    }
    lengths
}

fn round(run: &mut Run) -> Checked {
    let call = random_call(&mut run.rng);
    compare(run, &call)
}

/// Each rule is broken now and then.
fn random_call(rng: &mut Rng) -> Call {
    let log2 = random_log2(rng);
    let size: usize = 1 << log2;
    let format = if rng.one_in(8) { rng.pick(&FORMATS) } else { 1 + rng.below(2) as u16 };
    let mut at = random_identity(rng, log2, format);
    if rng.one_in(16) {
        at.log2_slot_size = rng.pick(&IMPOSSIBLE_LOG2S);
    }
    let mut version = random_version(rng);
    if rng.one_in(16) {
        version.generation = 0;
    }
    if format == 1 && !rng.one_in(8) {
        version.meta_seq = 0;
    }
    let len = if rng.one_in(16) { rng.pick(&[0, 1, size / 2, size - 1, size + 1]) } else { size };
    let room = size - HEADER;
    let payload_len = if rng.one_in(16) { room + 1 + rng.below(9) } else { random_payload_len(rng, room) };
    Call { at, version, len, payload_len }
}

fn compare(run: &mut Run, call: &Call) -> Checked {
    let mut slot = Lent::random(&mut run.rng, call.len);
    let payload = Lent::random(&mut run.rng, call.payload_len);
    let crc = LentCell::random(&mut run.rng);
    let expected = slot_reference::encode(slot.expected_mut(), &call.at, &call.version, payload.expected());
    let refusal = ffi::encode(slot.cells(), &call.at, &call.version, payload.cells(), crc.cell());
    let equal = refusal == expected.refusal && crc.holds(expected.header_crc32c) && slot.holds() && payload.holds();
    let answer = match expected.refusal {
        0 => Answer::Done,
        refusal => Answer::Refusal(refusal),
    };
    run.case(ENCODE, answer, equal, || Report {
        inputs: inputs(call, &slot, &payload),
        expected: vec![
            ("refusal", number(expected.refusal)),
            ("header_crc32c cell", crc.expected_text(expected.header_crc32c)),
            ("slot", slot.expected_text()),
            ("payload", payload.expected_text()),
        ],
        found: vec![
            ("refusal", number(refusal)),
            ("header_crc32c cell", crc.found_text()),
            ("slot", slot.found_text()),
            ("payload", payload.found_text()),
        ],
    })
}

fn inputs(call: &Call, slot: &Lent, payload: &Lent) -> Fields {
    let mut inputs = identity_fields(&call.at);
    inputs.extend([
        ("generation", number(call.version.generation)),
        ("owner_generation", number(call.version.owner_generation)),
        ("prev_header_crc32c", number(call.version.prev_header_crc32c)),
        ("meta_seq", number(call.version.meta_seq)),
        ("compat_flags", number(call.version.compat_flags)),
        ("slot", slot.before_text()),
        ("payload", payload.before_text()),
    ]);
    inputs
}
