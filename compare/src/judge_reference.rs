//! What is answered to one call of the judge: what judge_restated.rs has, held to the reference where all pairs are one operator's.
//!
//! The reference is what lies beside this module: at the root the Rust, in `weak` the Rust over a weak checksum.

use super::judge::{self, JudgeError, Judgement, PairRead, PairVerdict, SlotRead, SlotVerdict, Standing};
use super::slot::{HeaderFacts, NumberedHeader, SlotInfo, SlotStatus};
use super::slot_reference::{index_number, some_info};
use crate::frames::{most_operator, of_one_operator, packed, row_read, Pair, Slot, FRAME};
use crate::judge_restated;
use crate::value::hex;
use std::collections::BTreeSet;

pub const NO_PAIR: u32 = 8;
pub const VERDICTS_LEN: u32 = 9;
pub const BAD_FRAMES: u32 = 10;
pub const TOO_MANY_PAIRS: u32 = 45;

/// The most pairs of a judgement.
pub const MOST_PAIRS: usize = 112;

/// The bytes of a pair's verdict, and the numbers of a judgement.
pub const VERDICT: usize = 4;
pub const JUDGEMENT: usize = 6;

pub struct Judged {
    pub verdicts: Vec<u8>,
    pub judgement: [u64; JUDGEMENT],
}

/// The verdicts and the judgement, or the number of a refusal. The reference has the numbers 8 and 9 only, and judges any number of pairs.
pub fn judge(frames: &[u8], clean: u8, verdicts_len: usize) -> Result<Judged, u32> {
    if frames.len() > MOST_PAIRS * FRAME {
        return Err(TOO_MANY_PAIRS);
    }
    judge_any(frames, clean, verdicts_len)
}

/// The same without the limit on pairs.
pub fn judge_any(frames: &[u8], clean: u8, verdicts_len: usize) -> Result<Judged, u32> {
    if frames.is_empty() {
        return Err(NO_PAIR);
    }
    if frames.len() % FRAME != 0 {
        return Err(BAD_FRAMES);
    }
    if verdicts_len != frames.len() / FRAME * VERDICT {
        return Err(VERDICTS_LEN);
    }
    let mut pairs = vec![NOT_READ; frames.len() / FRAME];
    if !decode(&some_info(), frames, &mut pairs) || clean > 1 {
        return Err(BAD_FRAMES);
    }
    let row = row_read(frames);
    // The Rust takes all pairs for one operator's: where they are, the restated judge answers the same.
    let rust = rust_judge(&pairs, clean == 1);
    let alike = judge_restated::judge(&of_one_operator(&row), clean == 1);
    assert!(alike == rust, "restated otherwise, with the mark {clean}: {}", hex(frames));
    let (verdicts, [slot, pair, writable, clean, refused]) = judge_restated::judge(&row, clean == 1);
    let differ = owners(&row, &verdicts).len() > 1;
    Ok(Judged { judgement: [slot, pair, writable, clean, refused, differ.into()], verdicts })
}

fn rust_judge(pairs: &[PairRead], clean: bool) -> (Vec<u8>, [u64; JUDGEMENT - 1]) {
    let mut verdicts = vec![NOT_JUDGED; pairs.len()];
    let judgement = judge::judge(pairs, clean, &mut verdicts).expect("the reference refuses a row of pairs");
    (verdicts.iter().flat_map(verdict_bytes).collect(), judgement_numbers(&judgement))
}

/// The owner generations of the winners, each once. The reference judges without them.
pub fn owners(row: &[Pair], verdicts: &[u8]) -> BTreeSet<u64> {
    let pairs = row.iter().zip(verdicts.chunks(VERDICT));
    pairs.filter_map(|(pair, verdict)| Some(pair.slots[usize::from(verdict[1]).checked_sub(1)?].owner)).collect()
}

/// The refusal of the pairs of whole frames where `room` verdicts are lent, and the verdicts that are left.
pub fn judge_records(frames: &[u8], clean: bool, room: usize) -> (u32, Vec<u8>) {
    let row = row_read(frames);
    let mut pairs = vec![NOT_READ; row.len()];
    assert!(decode(&some_info(), &packed(&of_one_operator(&row)), &mut pairs), "a value is out of range");
    let mut verdicts = vec![NOT_JUDGED; room];
    let kept = verdicts.iter().flat_map(verdict_bytes).collect();
    if pairs.len() > MOST_PAIRS {
        return (TOO_MANY_PAIRS, kept);
    }
    let refusal = match judge::judge(&pairs, clean, &mut verdicts) {
        Err(JudgeError::Empty) => NO_PAIR,
        Err(JudgeError::OutputLength) => VERDICTS_LEN,
        Ok(_) if row.iter().enumerate().any(|(at, pair)| pair.operator > most_operator(at)) => BAD_FRAMES,
        Ok(_) => panic!("the reference judges the row"),
    };
    (refusal, kept)
}

/// A verdict to be overwritten.
pub const NOT_JUDGED: PairVerdict =
    PairVerdict { standing: Standing::Lost, winner: None, a: SlotVerdict::Damage, b: SlotVerdict::Damage };

/// A pair to be overwritten.
pub const NOT_READ: PairRead = PairRead {
    a: SlotRead { status: SlotStatus::ReadError, facts: None },
    b: SlotRead { status: SlotStatus::ReadError, facts: None },
};

/// Reads whole frames into as many pairs; false where a code, facts or an operator are out of range. `some_info` is the info of any slot,
/// since no other module than the reference's can make one.
#[inline(never)]
pub fn decode(some_info: &SlotInfo, frames: &[u8], pairs: &mut [PairRead]) -> bool {
    for (at, (frame, read)) in frames.chunks_exact(FRAME).zip(pairs).enumerate() {
        let Pair { slots: [a, b], operator } = Pair::read(frame);
        let (Some(a), Some(b)) = (slot_read(some_info, a), slot_read(some_info, b)) else {
            return false;
        };
        if operator > most_operator(at) {
            return false;
        }
        *read = PairRead { a, b };
    }
    true
}

#[inline(always)]
fn slot_read(some_info: &SlotInfo, part: Slot) -> Option<SlotRead> {
    let Slot { generation, number: meta_seq, own, previous: prev_header_crc32c, owner: owner_generation, .. } = part;
    let numbered = NumberedHeader { generation, meta_seq, prev_header_crc32c };
    let facts = match part.facts {
        0 => None,
        1 => Some(HeaderFacts { stored_header_crc32c: own, numbered: None }),
        2 => Some(HeaderFacts { stored_header_crc32c: own, numbered: Some(numbered) }),
        _ => return None,
    };
    let status = match part.code {
        0 => SlotStatus::ReadError,
        1 => SlotStatus::BadLength,
        2 => SlotStatus::Blank,
        3 => SlotStatus::BadMagic,
        4 => SlotStatus::BadHeaderCrc,
        5 => SlotStatus::UnsupportedVersion { major: 3 },
        6 => SlotStatus::Incompatible { flags: 1 },
        7 => SlotStatus::Malformed,
        8 => SlotStatus::Foreign,
        9 => SlotStatus::WrongObject,
        10 => SlotStatus::Misplaced,
        11 => SlotStatus::BadPayloadCrc,
        12 => {
            let mut info = *some_info;
            info.generation = generation;
            info.meta_seq = meta_seq;
            info.header_crc32c = own;
            info.prev_header_crc32c = prev_header_crc32c;
            info.owner_generation = owner_generation;
            SlotStatus::Valid(info)
        }
        _ => return None,
    };
    Some(SlotRead { status, facts })
}

/// The enums' cases are in the order of their numbers.
pub fn verdict_bytes(verdict: &PairVerdict) -> [u8; VERDICT] {
    [verdict.standing as u8, verdict.winner.map_or(0, index_number), verdict.a as u8, verdict.b as u8]
}

/// All numbers of a judgement but the last.
pub fn judgement_numbers(judgement: &Judgement) -> [u64; JUDGEMENT - 1] {
    let (pair, slot) = judgement.heal.map_or((0, 0), |(pair, index)| (pair as u64, index_number(index).into()));
    [slot, pair, judgement.writable.into(), judgement.clean.into(), judgement.refused.into()]
}
