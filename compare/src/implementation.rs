//! Who writes slots, reads them back, judges them and says what to write next in a trial of cut stores.

use crate::cut_records::{bytes, cells, done};
use crate::ffi::{self, Identity, Version};
use crate::ffi_pair::{self, Answered, PairIdentity};
use crate::ffi_plan;
use crate::frames::{FRAME, HALF};
use crate::judge_reference::{JUDGEMENT, VERDICT};
use crate::outcome::Expected;
use std::cell::Cell;

pub trait Implementation {
    /// How many bits a checksum has, of 32.
    fn checksum_bits(&self) -> u32;
    /// The checksum by which headers and payloads pass.
    fn checksum(&self, bytes: &[u8]) -> u32;
    /// A slot and its header's checksum.
    fn encode(&self, at: &Identity, version: &Version, payload: &[u8]) -> (Vec<u8>, u32);
    /// A slot's status and its part of a frame.
    fn frame_slot(&self, slot: &[u8], at: &Identity, numbered: u32) -> (u32, [u8; HALF]);
    fn judge(&self, frames: &[u8], clean: bool) -> Judged;
    fn winner_payload(&self, slots: &[Vec<u8>; 2], at: &PairIdentity) -> WinnerPayload;
    /// What to write, to this pair of this operator or to heal under this mark.
    fn planned(&self, frames: &[u8], clean: bool, pair: usize, operator: u8) -> Planned;
}

/// The number of a refusal or 0, a verdict for each pair, and the judgement.
#[derive(PartialEq)]
pub struct Judged {
    pub refusal: u32,
    pub verdicts: Vec<u8>,
    pub judgement: [u64; JUDGEMENT],
}

/// The slot that wins, 0 for none, the place of its payload, and the statuses and the decision that led to it.
pub struct WinnerPayload {
    pub winner: u32,
    pub start: usize,
    pub payload_len: usize,
    pub report: [u8; 7],
}

/// An operator's number that is next, the one above its winners, the plan of a pair's next write and that of the write that heals,
/// as C has them: zeros where there is no plan.
#[derive(PartialEq)]
pub struct Planned {
    pub next_number: Expected<u64>,
    pub heal_number: Expected<u64>,
    pub write: Expected<[u64; 4]>,
    pub heal: Expected<[u64; 5]>,
}

/// The built library.
pub struct Library;

impl Implementation for Library {
    fn checksum_bits(&self) -> u32 {
        u32::BITS
    }

    /// The reference's: what passes is not asked of the library.
    fn checksum(&self, bytes: &[u8]) -> u32 {
        crate::crc32c::crc32c(bytes)
    }

    fn encode(&self, at: &Identity, version: &Version, payload: &[u8]) -> (Vec<u8>, u32) {
        let slot = cells(&vec![0; 1 << at.log2_slot_size]);
        let checksum = Cell::new(0);
        done("sio_encode", ffi::encode(&slot, at, version, &cells(payload), &checksum));
        (bytes(&slot), checksum.get())
    }

    fn frame_slot(&self, slot: &[u8], at: &Identity, numbered: u32) -> (u32, [u8; HALF]) {
        let part = Cell::new([0xee; HALF]);
        let status = ffi::frame_slot(&cells(slot), at, numbered, &part);
        (status, part.get())
    }

    fn judge(&self, frames: &[u8], clean: bool) -> Judged {
        let verdicts = cells(&vec![0xee; frames.len() / FRAME * VERDICT]);
        let judgement = Cell::new([u64::MAX; JUDGEMENT]);
        let refusal = ffi::judge(&cells(frames), clean.into(), &verdicts, &judgement);
        Judged { refusal, verdicts: bytes(&verdicts), judgement: judgement.get() }
    }

    fn winner_payload(&self, [a, b]: &[Vec<u8>; 2], at: &PairIdentity) -> WinnerPayload {
        let answered = Answered {
            values_a: &Cell::new([0; 9]),
            values_b: &Cell::new([0; 9]),
            report: &Cell::new([0xee; 7]),
            start: &Cell::new(usize::MAX),
            payload_len: &Cell::new(0),
        };
        let winner = ffi_pair::winner_payload(&cells(a), &cells(b), at, &answered);
        WinnerPayload {
            winner,
            start: answered.start.get(),
            payload_len: answered.payload_len.get(),
            report: answered.report.get(),
        }
    }

    fn planned(&self, frames: &[u8], clean: bool, pair: usize, operator: u8) -> Planned {
        let frames = cells(frames);
        Planned {
            next_number: left_in(u64::MAX, |number| ffi_plan::next_number(&frames, operator, number)),
            heal_number: left_in(u64::MAX, |number| ffi_plan::heal_number(&frames, operator, number)),
            write: left_in([u64::MAX; 4], |plan| ffi_plan::plan_write(&frames, pair, plan)),
            heal: left_in([u64::MAX; 5], |plan| ffi_plan::plan_heal(&frames, clean.into(), plan)),
        }
    }
}

/// What a call leaves in its cell, which holds `before`, or the number that it refuses with.
fn left_in<T: Copy>(before: T, call: impl FnOnce(&Cell<T>) -> u32) -> Expected<T> {
    let cell = Cell::new(before);
    match call(&cell) {
        0 => Ok(cell.get()),
        refusal => Err(refusal),
    }
}
