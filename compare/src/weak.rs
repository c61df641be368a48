//! The reference's slots, pairs and judge over a checksum of four bits, which one torn slot in sixteen passes.

/// Its slot.rs, made by compare/build.
#[path = "../../target/compare/weak/slot.rs"]
#[allow(dead_code)]
#[rustfmt::skip]
mod slot;
/// Its pair.rs over that.
#[path = "../../target/compare/weak/pair.rs"]
#[allow(dead_code)]
#[rustfmt::skip]
mod pair;
/// And its judge.rs.
#[path = "../../target/compare/weak/judge.rs"]
#[allow(dead_code)]
#[rustfmt::skip]
mod judge;

// They are asked by the modules that ask the Rust itself.
#[path = "judge_reference.rs"]
#[allow(dead_code)]
mod judge_reference;
#[path = "slot_reference.rs"]
#[allow(dead_code)]
mod slot_reference;

use crate::ffi::{Identity, Version};
use crate::ffi_pair::PairIdentity;
use crate::frames::{FRAME, HALF};
use crate::implementation::{Implementation, Judged, Planned, WinnerPayload};
use crate::plan_reference::{self, heal_numbers, write_numbers};

const BITS: u32 = 4;

/// In the place of the Rust's function of this name: all halves of bytes, added without carry.
pub fn crc32c(bytes: &[u8]) -> u32 {
    crc32c_append(0, bytes)
}

/// The same.
pub fn crc32c_append(crc: u32, bytes: &[u8]) -> u32 {
    let both = bytes.iter().fold(0, |sum, byte| sum ^ byte);
    crc ^ u32::from(both >> BITS ^ both & 0xf)
}

/// The reference over that checksum.
pub struct Weak;

impl Implementation for Weak {
    fn checksum_bits(&self) -> u32 {
        BITS
    }

    fn checksum(&self, bytes: &[u8]) -> u32 {
        crc32c(bytes)
    }

    fn encode(&self, at: &Identity, version: &Version, payload: &[u8]) -> (Vec<u8>, u32) {
        let mut slot = vec![0; 1 << at.log2_slot_size];
        let encoded = slot_reference::encode(&mut slot, at, version, payload);
        (slot, encoded.header_crc32c.expect("the reference refuses to write a slot"))
    }

    fn frame_slot(&self, slot: &[u8], at: &Identity, numbered: u32) -> (u32, [u8; HALF]) {
        slot_reference::frame_slot(slot, at, numbered)
    }

    fn judge(&self, frames: &[u8], clean: bool) -> Judged {
        let verdicts_len = frames.len() / FRAME * judge_reference::VERDICT;
        match judge_reference::judge(frames, clean.into(), verdicts_len) {
            Ok(judged) => Judged { refusal: 0, verdicts: judged.verdicts, judgement: judged.judgement },
            Err(refusal) => Judged { refusal, verdicts: Vec::new(), judgement: [0; judge_reference::JUDGEMENT] },
        }
    }

    fn winner_payload(&self, [a, b]: &[Vec<u8>; 2], at: &PairIdentity) -> WinnerPayload {
        let found = slot_reference::winner_payload(a, b, at);
        WinnerPayload {
            winner: found.winner.into(),
            start: found.start,
            payload_len: found.payload_len,
            report: found.report,
        }
    }

    /// The frames say all of it, and no checksum is taken of them.
    fn planned(&self, frames: &[u8], clean: bool, pair: usize, operator: u8) -> Planned {
        Planned {
            next_number: plan_reference::next_number(frames, operator),
            heal_number: plan_reference::heal_number(frames, operator),
            write: plan_reference::plan_write(frames, pair).map(|plan| write_numbers(&plan)),
            heal: plan_reference::plan_heal(frames, clean.into()).map(|heal| heal_numbers(&heal)),
        }
    }
}
