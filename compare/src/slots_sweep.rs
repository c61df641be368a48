//! Every case of a small range of slots to read.

use crate::faults::{FAULTS, FORMATS};
use crate::ffi::Identity;
use crate::part::{Checked, Run};
use crate::sample::{
    Form, Sample, COMPAT_FLAGS, COUNT, FORMAT, GENERATION, HEADER, HEADER_CRC, HEADER_LEN, INCOMPAT_FLAGS, INDEX, LOG2,
    MAGIC, NUMBER, OBJECT, OFFSET, OWNER, PAYLOAD_CRC, PAYLOAD_LEN, PREVIOUS_CRC, RO_COMPAT_FLAGS, SMALLEST_LOG2, YES,
    ZERO_79, ZERO_84,
};
use crate::slot;
use crate::slots::{compare_reads, compare_seals, random_form, seal_and_spoil, torn};
use std::ops::Range;

/// The fields of the header that hold one number.
const NUMBER_FIELDS: [Range<usize>; 20] = [
    MAGIC,
    HEADER_CRC,
    HEADER_LEN,
    FORMAT,
    INCOMPAT_FLAGS,
    RO_COMPAT_FLAGS,
    COMPAT_FLAGS,
    PAYLOAD_CRC,
    OBJECT,
    GENERATION,
    OFFSET,
    PAYLOAD_LEN,
    INDEX,
    COUNT,
    LOG2,
    ZERO_79,
    PREVIOUS_CRC,
    ZERO_84,
    OWNER,
    NUMBER,
];

const SIZE: usize = 1 << SMALLEST_LOG2;

pub fn sweep(run: &mut Run) -> Checked {
    for format in [1, 2] {
        for numbered in [false, true] {
            let form = Form { log2: SMALLEST_LOG2, format, numbered, payload_len: 77 };
            payload_lengths(run, &form)?;
            header_bytes(run, &form)?;
            field_values(run, &form)?;
            header_lengths(run, &form)?;
            pairs_of_faults(run, &form)?;
            other_expectations(run, &form)?;
            every_bit(run, &form)?;
            padding(run, &form)?;
            torn_slots(run, &form)?;
            wrong_lengths(run, &form)?;
            large_slots(run, &form)?;
        }
    }
    blank_slots(run)?;
    random_slots(run)
}

fn payload_lengths(run: &mut Run, form: &Form) -> Checked {
    for payload_len in 0..=form.room() {
        let sample = Sample::written(&mut run.rng, &Form { payload_len, ..*form });
        compare_reads(run, &sample)?;
    }
    Ok(())
}

/// Every byte of the header changed, bit by bit and as a whole, and both checksums left or made to fit.
fn header_bytes(run: &mut Run, form: &Form) -> Checked {
    for at in 0..HEADER {
        let sample = Sample::written(&mut run.rng, form);
        let byte = sample.slot[at];
        let flipped = (0..8).map(|bit| byte ^ 1 << bit);
        for value in flipped.chain([0, 1, 0xff, byte.wrapping_add(1), byte.wrapping_sub(1)]) {
            let mut sample = sample.clone();
            sample.slot[at] = value;
            compare_seals(run, &sample)?;
        }
    }
    Ok(())
}

/// Every field at its edges, and beside the value that it had.
fn field_values(run: &mut Run, form: &Form) -> Checked {
    for field in NUMBER_FIELDS {
        let sample = Sample::written(&mut run.rng, form);
        let value = sample.get(field.clone());
        let high = 1 << (8 * field.len() - 1);
        for value in [0, 1, 2, high, high - 1, u64::MAX, value.wrapping_add(1), value.wrapping_sub(1), !value] {
            let mut sample = sample.clone();
            sample.set(field.clone(), value);
            compare_seals(run, &sample)?;
        }
    }
    Ok(())
}

/// Header lengths with payload lengths around what fits after them; the header checksum left, made to fit, and taken over
/// 128 bytes whatever the length.
fn header_lengths(run: &mut Run, form: &Form) -> Checked {
    for header_len in [0, 1, 8, 11, 12, 13, 127, 128, 129, 130, 200, 511, 512, 513, 0x7fff, 0x8000, 0xffff] {
        let room = SIZE.saturating_sub(header_len);
        for payload_len in [0, 1, room.saturating_sub(1), room, room + 1, SIZE, 1 << 16, 1 << 31, (1 << 32) - 1] {
            let mut sample = Sample::written(&mut run.rng, form);
            run.rng.fill(&mut sample.slot[HEADER..]);
            sample.set(HEADER_LEN, header_len as u64);
            sample.set(PAYLOAD_LEN, payload_len as u64);
            compare_seals(run, &sample)?;
            sample.seal_payload();
            sample.seal_header_over(HEADER);
            compare_reads(run, &sample)?;
        }
    }
    Ok(())
}

/// Every two faults together, so that the order of any two checks shows, with right and wrong checksums.
fn pairs_of_faults(run: &mut Run, form: &Form) -> Checked {
    for first in FAULTS {
        for second in FAULTS {
            for (header, payload) in [(false, false), (false, true), (true, false), (true, true)] {
                let mut sample = Sample::written(&mut run.rng, form);
                first(&mut sample, &mut run.rng);
                second(&mut sample, &mut run.rng);
                seal_and_spoil(&mut run.rng, &mut sample, header, payload);
                compare_reads(run, &sample)?;
            }
        }
    }
    Ok(())
}

/// A slot read with another identity or size than it was written with, in every bit.
fn other_expectations(run: &mut Run, form: &Form) -> Checked {
    let sample = Sample::written(&mut run.rng, form);
    for bit in 0..64 {
        compare_at(run, &sample, |at| at.volume0 ^= 1 << bit)?;
        compare_at(run, &sample, |at| at.volume1 ^= 1 << bit)?;
        compare_at(run, &sample, |at| at.object_id ^= 1 << bit)?;
        compare_at(run, &sample, |at| at.slot_offset ^= 1 << bit)?;
    }
    compare_at(run, &sample, |at| std::mem::swap(&mut at.volume0, &mut at.volume1))?;
    for index in [0].into_iter().chain(YES) {
        compare_at(run, &sample, |at| at.index = index)?;
    }
    for log2 in 0..=255 {
        compare_at(run, &sample, |at| at.log2_slot_size = log2)?;
    }
    for format in FORMATS {
        compare_at(run, &sample, |at| at.format_major = format as u16)?;
    }
    for numbered in [0].into_iter().chain(YES) {
        compare_reads(run, &Sample { numbered, ..sample.clone() })?;
    }
    Ok(())
}

fn compare_at(run: &mut Run, sample: &Sample, change: impl FnOnce(&mut Identity)) -> Checked {
    let mut sample = sample.clone();
    change(&mut sample.at);
    compare_reads(run, &sample)
}

/// Every bit of the slot changed, in header, payload and padding.
fn every_bit(run: &mut Run, form: &Form) -> Checked {
    let mut sample = Sample::written(&mut run.rng, form);
    for bit in 0..8 * SIZE {
        sample.flip(bit);
        compare_reads(run, &sample)?;
        sample.flip(bit);
    }
    Ok(())
}

/// Anything after the payload.
fn padding(run: &mut Run, form: &Form) -> Checked {
    for payload_len in 0..form.room() {
        let mut sample = Sample::written(&mut run.rng, &Form { payload_len, ..*form });
        run.rng.fill(&mut sample.slot[HEADER + payload_len..]);
        compare_reads(run, &sample)?;
    }
    Ok(())
}

/// The first bytes of a new version over an older one, over zeros and over anything.
fn torn_slots(run: &mut Run, form: &Form) -> Checked {
    let new = Sample::written(&mut run.rng, form);
    let mut old = new.clone();
    old.write(&mut run.rng, form.room());
    let anything = run.rng.bytes(SIZE);
    for cut in 0..=SIZE {
        for below in [&old.slot, &vec![0; SIZE], &anything] {
            compare_reads(run, &torn(&new, below, cut))?;
        }
    }
    Ok(())
}

fn wrong_lengths(run: &mut Run, form: &Form) -> Checked {
    for len in [0, 1, 7, 8, 12, 127, 128, 129, 256, SIZE - 1, SIZE + 1, 2 * SIZE] {
        let mut sample = Sample::written(&mut run.rng, form);
        sample.slot.resize(len, 0);
        for log2 in 0..=20 {
            sample.at.log2_slot_size = log2;
            compare_reads(run, &sample)?;
        }
    }
    Ok(())
}

/// The larger sizes: full and empty, the longest header, and a length off by one.
fn large_slots(run: &mut Run, form: &Form) -> Checked {
    for log2 in SMALLEST_LOG2 + 1..=16 {
        let form = Form { log2, ..*form };
        for payload_len in [0, 1, form.room() - 1, form.room()] {
            let sample = Sample::written(&mut run.rng, &Form { payload_len, ..form });
            compare_reads(run, &sample)?;
            let last = 8 * sample.slot.len() - 1;
            let mut damaged = sample.clone();
            damaged.flip(last);
            compare_reads(run, &damaged)?;
            longest_header(run, sample)?;
        }
    }
    for log2 in [8, 17, 20] {
        let mut sample = Sample::written(&mut run.rng, form);
        sample.slot.resize(1 << log2, 0);
        sample.at.log2_slot_size = log2;
        sample.set(LOG2, log2.into());
        sample.seal();
        compare_reads(run, &sample)?;
    }
    Ok(())
}

fn longest_header(run: &mut Run, mut sample: Sample) -> Checked {
    let size = sample.slot.len();
    for header_len in [size - 1, size, size + 1] {
        for payload_len in [0, 1, 2] {
            sample.set(HEADER_LEN, header_len as u64);
            sample.set(PAYLOAD_LEN, payload_len);
            sample.seal();
            compare_reads(run, &sample)?;
        }
    }
    sample.slot.push(0);
    compare_reads(run, &sample)
}

/// No byte of the header, or one, and anything after it.
fn blank_slots(run: &mut Run) -> Checked {
    let form = Form { log2: SMALLEST_LOG2, format: 2, numbered: true, payload_len: 0 };
    let mut sample = Sample::written(&mut run.rng, &form);
    for behind in [vec![0; SIZE - HEADER], run.rng.bytes(SIZE - HEADER)] {
        sample.slot[..HEADER].fill(0);
        sample.slot[HEADER..].copy_from_slice(&behind);
        compare_reads(run, &sample)?;
        for bit in 0..8 * (HEADER + 8) {
            sample.flip(bit);
            compare_reads(run, &sample)?;
            sample.flip(bit);
        }
    }
    Ok(())
}

/// Random bytes, then with the magic, then with a possible header length, then sealed.
fn random_slots(run: &mut Run) -> Checked {
    let magic = u64::from_le_bytes(slot::MAGIC);
    for _ in 0..1000 {
        let form = random_form(&mut run.rng);
        let mut sample = Sample::written(&mut run.rng, &form);
        run.rng.fill(&mut sample.slot);
        compare_reads(run, &sample)?;
        sample.set(MAGIC, magic);
        compare_reads(run, &sample)?;
        sample.set(HEADER_LEN, HEADER as u64);
        compare_seals(run, &sample)?;
    }
    Ok(())
}
