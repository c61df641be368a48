//! Compares the reading of slots with the reference's slot.rs: status, header facts, and the part of a frame.

use crate::counts::{Answer, Function};
use crate::faults::{spoil_header, spoil_payload, FAULTS};
use crate::ffi::{self, Identity};
use crate::lent::{Lent, LentCell};
use crate::part::{number, Checked, Part, Report, Run};
use crate::rng::Rng;
use crate::sample::{random_log2, random_payload_len, Form, Sample, HEADER, RO_COMPAT_FLAGS};
use crate::slot_reference;
use crate::slots_sweep::sweep;
use crate::value::Value;
use std::cell::Cell;

const VALIDATE: &str = "sio_validate";
const FACTS: &str = "sio_header_facts";
const FRAME: &str = "sio_frame_slot";

pub const STATUSES: &[Answer] = &[
    Answer::Status(1),
    Answer::Status(2),
    Answer::Status(3),
    Answer::Status(4),
    Answer::Status(5),
    Answer::Status(6),
    Answer::Status(7),
    Answer::Status(8),
    Answer::Status(9),
    Answer::Status(10),
    Answer::Status(11),
    Answer::Status(12),
];

const SHOWN: &[Answer] = &[Answer::Facts(0), Answer::Facts(1), Answer::Facts(2)];

pub const PART: Part = Part {
    functions: &[Function::new(VALIDATE, STATUSES), Function::new(FACTS, SHOWN), Function::new(FRAME, STATUSES)],
    sweep,
    round,
};

fn round(run: &mut Run) -> Checked {
    let sample = random_sample(&mut run.rng);
    compare_reads(run, &sample)
}

pub fn random_form(rng: &mut Rng) -> Form {
    let mut form =
        Form { log2: random_log2(rng), format: 1 + rng.below(2) as u16, numbered: rng.one_in(2), payload_len: 0 };
    form.payload_len = random_payload_len(rng, form.room());
    form
}

fn random_sample(rng: &mut Rng) -> Sample {
    let form = random_form(rng);
    let sample = Sample::written(rng, &form);
    damaged(rng, sample)
}

/// Leaves a slot as it is, tears it, changes some bits, or makes faults and seals it again.
pub fn damaged(rng: &mut Rng, mut sample: Sample) -> Sample {
    match rng.below(8) {
        0 => sample,
        1 => {
            let below = older(rng, &sample);
            torn(&sample, &below, random_cut(rng, sample.slot.len()))
        }
        2 => {
            for _ in 0..=rng.below(3) {
                let all = 0..sample.slot.len();
                sample.flip_in(rng, all);
            }
            sample
        }
        _ => {
            random_faults(rng, &mut sample);
            sample
        }
    }
}

/// The first `cut` bytes of a new version, and after them what was there before.
pub fn torn(new: &Sample, below: &[u8], cut: usize) -> Sample {
    let slot = [&new.slot[..cut], &below[cut..]].concat();
    Sample { slot, ..*new }
}

/// What a slot may hold before it is written: an older version, zeros, or anything.
fn older(rng: &mut Rng, sample: &Sample) -> Vec<u8> {
    let len = sample.slot.len();
    if rng.one_in(4) {
        return rng.bytes(len);
    }
    let mut old = sample.clone();
    let payload_len = random_payload_len(rng, len - HEADER);
    old.write(rng, payload_len);
    old.slot
}

/// In the header for the most part.
fn random_cut(rng: &mut Rng, len: usize) -> usize {
    let behind = if rng.one_in(4) { len + 1 } else { HEADER + 9 };
    rng.below(behind)
}

fn random_faults(rng: &mut Rng, sample: &mut Sample) {
    if rng.one_in(2) {
        sample.set(RO_COMPAT_FLAGS, rng.next());
    }
    for _ in 0..rng.below(4) {
        let fault = rng.pick(FAULTS);
        fault(sample, rng);
    }
    let header = rng.one_in(8);
    let payload = rng.one_in(4);
    seal_and_spoil(rng, sample, header, payload);
}

/// Makes both checksums fit, but those to spoil.
pub fn seal_and_spoil(rng: &mut Rng, sample: &mut Sample, header: bool, payload: bool) {
    sample.seal();
    if payload {
        spoil_payload(sample, rng);
    }
    if header {
        spoil_header(sample, rng);
    }
}

/// The slot as it is, with the header checksum made to fit, and with both.
pub fn compare_seals(run: &mut Run, sample: &Sample) -> Checked {
    compare_reads(run, sample)?;
    let mut sealed = sample.clone();
    sealed.seal_header();
    compare_reads(run, &sealed)?;
    sealed.seal();
    compare_reads(run, &sealed)
}

pub fn compare_reads(run: &mut Run, sample: &Sample) -> Checked {
    let Sample { slot, at, numbered } = sample;
    let lent = Lent::holding(&mut run.rng, slot);
    let status = slot_reference::validate(slot, at, *numbered);
    compare(run, VALIDATE, Answer::Status(status.0), sample, &lent, status, ffi::validate)?;
    let facts = slot_reference::header_facts(slot, at, *numbered);
    compare(run, FACTS, Answer::Facts(facts.0), sample, &lent, facts, ffi::header_facts)?;
    let part = slot_reference::frame_slot(slot, at, *numbered);
    compare(run, FRAME, Answer::Status(part.0), sample, &lent, part, ffi::frame_slot)
}

/// A reading function of the interface, which answers a number and fills a cell.
type Reading<T> = fn(&[Cell<u8>], &Identity, u32, &Cell<T>) -> u32;

fn compare<T: Value>(
    run: &mut Run,
    function: &'static str,
    answer: Answer,
    sample: &Sample,
    slot: &Lent,
    expected: (u32, T),
    ours: Reading<T>,
) -> Checked {
    let cell = LentCell::random(&mut run.rng);
    let result = ours(slot.cells(), &sample.at, sample.numbered, cell.cell());
    let equal = result == expected.0 && cell.holds(Some(expected.1)) && slot.holds();
    run.case(function, answer, equal, || {
        let mut inputs = sample.inputs();
        inputs.push(("slot", slot.before_text()));
        Report {
            inputs,
            expected: vec![
                ("result", number(expected.0)),
                ("found cell", cell.expected_text(Some(expected.1))),
                ("slot", slot.expected_text()),
            ],
            found: vec![("result", number(result)), ("found cell", cell.found_text()), ("slot", slot.found_text())],
        }
    })
}
