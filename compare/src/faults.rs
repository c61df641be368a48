//! What can be wrong with a slot, or with what a reader expects of it.

use crate::rng::Rng;
use crate::sample::{
    Sample, COUNT, FORMAT, GENERATION, HEADER, HEADER_CRC, HEADER_LEN, INCOMPAT_FLAGS, INDEX, LOG2, MAGIC, NUMBER,
    OBJECT, OFFSET, PAYLOAD_CRC, PAYLOAD_LEN, VOLUME, YES, ZERO_104, ZERO_79, ZERO_84,
};

pub type Fault = fn(&mut Sample, &mut Rng);

/// At least one fault for each rule of the reader, in its order. Both checksums are made to fit after these.
pub const FAULTS: &[Fault] = &[
    other_expected_log2,
    other_length,
    blank,
    |sample, rng| sample.flip_in(rng, MAGIC),
    impossible_header_len,
    |sample, rng| sample.set(FORMAT, rng.pick(&FORMATS)),
    |sample, rng| sample.at.format_major = rng.pick(&FORMATS) as u16,
    same_unknown_format,
    |sample, rng| sample.flip_in(rng, INCOMPAT_FLAGS),
    |sample, _| sample.set(GENERATION, 0),
    |sample, rng| sample.flip_in(rng, COUNT),
    |sample, rng| sample.set(INDEX, rng.pick(&[2, 3, 128, 255])),
    |sample, rng| sample.flip_in(rng, ZERO_79),
    |sample, rng| sample.flip_in(rng, ZERO_84),
    |sample, rng| sample.flip_in(rng, ZERO_104),
    other_number,
    |sample, rng| sample.numbered = if sample.numbered == 0 { rng.pick(&YES) } else { 0 },
    longer_header,
    |sample, rng| sample.flip_in(rng, VOLUME),
    |sample, rng| sample.at.volume0 ^= one_bit(rng),
    |sample, rng| sample.at.volume1 ^= one_bit(rng),
    |sample, rng| sample.flip_in(rng, OBJECT),
    |sample, rng| sample.at.object_id ^= one_bit(rng),
    |sample, rng| sample.flip_in(rng, OFFSET),
    |sample, rng| sample.at.slot_offset ^= one_bit(rng),
    |sample, _| sample.set(INDEX, sample.get(INDEX) ^ 1),
    |sample, rng| sample.at.index = if sample.at.index == 0 { rng.pick(&YES) } else { 0 },
    |sample, rng| sample.flip_in(rng, LOG2),
    long_payload,
];

/// Formats that a slot holds or a reader expects.
pub const FORMATS: [u64; 8] = [0, 1, 2, 3, 4, 0x101, 0x200, 0xffff];

/// Sizes that no slot has: beside the range, or in it where only the low bits of the shift count.
pub const IMPOSSIBLE_LOG2S: [u8; 10] = [0, 1, 7, 8, 17, 20, 32 + 9, 64 + 9, 128 + 9, 255];

fn one_bit(rng: &mut Rng) -> u64 {
    1 << rng.below(64)
}

fn other_expected_log2(sample: &mut Sample, rng: &mut Rng) {
    sample.at.log2_slot_size = match rng.below(4) {
        0 => 9 + rng.below(8) as u8,
        _ => rng.pick(&IMPOSSIBLE_LOG2S),
    };
}

fn other_length(sample: &mut Sample, rng: &mut Rng) {
    let len = sample.slot.len();
    let lens = [0, 1, 7, 8, 127, 128, 129, len / 2, len.saturating_sub(1), len + 1, 2 * len];
    sample.slot.resize(rng.pick(&lens), 0);
}

fn blank(sample: &mut Sample, _: &mut Rng) {
    let len = HEADER.min(sample.slot.len());
    sample.slot[..len].fill(0);
}

fn impossible_header_len(sample: &mut Sample, rng: &mut Rng) {
    let longer = sample.slot.len() as u64 + 1;
    sample.set(HEADER_LEN, rng.pick(&[0, 1, 8, 12, 127, longer, 0xffff]));
}

/// A format that is expected and found, but is not 1 or 2.
fn same_unknown_format(sample: &mut Sample, rng: &mut Rng) {
    let format = rng.pick(&[0, 3, 0x101, 0xffff]);
    sample.set(FORMAT, format);
    sample.at.format_major = format as u16;
}

/// Another number than the object may have.
fn other_number(sample: &mut Sample, rng: &mut Rng) {
    let with_number = sample.get(NUMBER) != 0;
    sample.set(NUMBER, if with_number { 0 } else { rng.pick(&[1, 1 << 32, 1 << 63, u64::MAX]) });
}

/// A header length that the slot has room for: read in format 1 only.
fn longer_header(sample: &mut Sample, rng: &mut Rng) {
    let longest = sample.slot.len().clamp(HEADER + 1, 0xffff);
    let len = match rng.below(4) {
        0 => longest,
        _ => HEADER + 1 + rng.below(longest - HEADER),
    };
    sample.set(HEADER_LEN, len as u64);
}

/// A payload length that the slot has no room for.
fn long_payload(sample: &mut Sample, rng: &mut Rng) {
    let room = sample.slot.len().saturating_sub(sample.header_len()) as u64;
    let wrapped = (1 << 32) - sample.header_len() as u64;
    sample.set(PAYLOAD_LEN, rng.pick(&[room + 1, room + 128, wrapped, wrapped + 1, 1 << 31, u32::MAX.into()]));
}

/// Makes the header checksum wrong.
pub fn spoil_header(sample: &mut Sample, rng: &mut Rng) {
    sample.flip_in(rng, HEADER_CRC);
}

/// Makes the payload checksum wrong, by a byte of the payload or by its own field.
pub fn spoil_payload(sample: &mut Sample, rng: &mut Rng) {
    match sample.payload() {
        Some(payload) if !payload.is_empty() && rng.one_in(2) => sample.flip_in(rng, payload),
        _ => sample.flip_in(rng, PAYLOAD_CRC),
    }
    sample.seal_header();
}
