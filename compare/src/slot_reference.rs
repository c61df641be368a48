//! What the Rust reference answers to one call of the slot and pair functions.
//!
//! The reference is what lies beside this module: at the root the Rust, in `weak` the Rust over a weak checksum.

use super::pair::{self, PairReport, Winner};
use super::slot::{self, EncodeError, Expect, HeaderFacts, SlotFields, SlotIndex, SlotInfo, SlotStatus};
use crate::ffi::{Identity, Side, Version};
use crate::ffi_pair::PairIdentity;
use crate::frames::{Slot, HALF};

/// The answer to an encoding: the checksum where it was not refused; the bytes are in the buffer.
pub struct Encoded {
    pub refusal: u32,
    pub header_crc32c: Option<u32>,
}

pub fn encode(slot: &mut [u8], at: &Identity, version: &Version, payload: &[u8]) -> Encoded {
    match slot::encode(slot, &fields(at, version), payload) {
        Ok(crc) => Encoded { refusal: 0, header_crc32c: Some(crc) },
        Err(error) => Encoded { refusal: encode_refusal(error), header_crc32c: None },
    }
}

fn encode_refusal(error: EncodeError) -> u32 {
    match error {
        EncodeError::SlotSize => 1,
        EncodeError::BufferLength => 2,
        EncodeError::PayloadTooLarge => 3,
        EncodeError::ZeroGeneration => 4,
        EncodeError::Format => 5,
    }
}

pub fn fields(at: &Identity, version: &Version) -> SlotFields {
    SlotFields {
        volume_uuid: volume_id(at),
        object_id: at.object_id,
        generation: version.generation,
        owner_generation: version.owner_generation,
        slot_offset: at.slot_offset,
        slot_index: slot_index(at),
        log2_slot_size: at.log2_slot_size,
        prev_header_crc32c: version.prev_header_crc32c,
        format_major: at.format_major,
        meta_seq: version.meta_seq,
        compat_flags: version.compat_flags,
    }
}

pub fn expect(at: &Identity, numbered: u32) -> Expect {
    Expect {
        volume_uuid: volume_id(at),
        object_id: at.object_id,
        slot_offset: at.slot_offset,
        slot_index: slot_index(at),
        log2_slot_size: at.log2_slot_size,
        format_major: at.format_major,
        numbered: numbered != 0,
    }
}

pub fn volume_id(at: &Identity) -> [u8; 16] {
    let mut id = [0; 16];
    id[..8].copy_from_slice(&at.volume0.to_le_bytes());
    id[8..].copy_from_slice(&at.volume1.to_le_bytes());
    id
}

fn slot_index(at: &Identity) -> SlotIndex {
    if at.index == 0 {
        SlotIndex::A
    } else {
        SlotIndex::B
    }
}

/// The code of a slot's status and the numbers found with it.
pub fn validate(slot: &[u8], at: &Identity, numbered: u32) -> (u32, [u64; 9]) {
    let status = slot::validate(slot, &expect(at, numbered));
    (code(&status), status_numbers(slot, &status))
}

fn status_numbers(slot: &[u8], status: &SlotStatus) -> [u64; 9] {
    match status {
        SlotStatus::UnsupportedVersion { major } => first((*major).into()),
        SlotStatus::Incompatible { flags } => first((*flags).into()),
        SlotStatus::Valid(info) => info_numbers(slot, info),
        _ => [0; 9],
    }
}

fn first(number: u64) -> [u64; 9] {
    let mut found = [0; 9];
    found[0] = number;
    found
}

/// Start and length of the payload are private in `SlotInfo`: they are taken from the place of the payload in the slot.
fn info_numbers(slot: &[u8], info: &SlotInfo) -> [u64; 9] {
    let payload = info.payload(slot);
    let start = payload.as_ptr() as usize - slot.as_ptr() as usize;
    [
        info.generation,
        info.owner_generation,
        info.header_crc32c.into(),
        info.prev_header_crc32c.into(),
        info.ro_compat_flags.into(),
        info.compat_flags.into(),
        info.meta_seq,
        start as u64,
        payload.len() as u64,
    ]
}

fn code(status: &SlotStatus) -> u32 {
    match status {
        SlotStatus::ReadError => 0,
        SlotStatus::BadLength => 1,
        SlotStatus::Blank => 2,
        SlotStatus::BadMagic => 3,
        SlotStatus::BadHeaderCrc => 4,
        SlotStatus::UnsupportedVersion { .. } => 5,
        SlotStatus::Incompatible { .. } => 6,
        SlotStatus::Malformed => 7,
        SlotStatus::Foreign => 8,
        SlotStatus::WrongObject => 9,
        SlotStatus::Misplaced => 10,
        SlotStatus::BadPayloadCrc => 11,
        SlotStatus::Valid(_) => 12,
    }
}

/// How much a slot's header shows, and the numbers shown.
pub fn header_facts(slot: &[u8], at: &Identity, numbered: u32) -> (u32, [u64; 4]) {
    match slot::header_facts(slot, &expect(at, numbered)) {
        None => (0, [0; 4]),
        Some(HeaderFacts { stored_header_crc32c: stored, numbered: None }) => (1, [stored.into(), 0, 0, 0]),
        Some(HeaderFacts { stored_header_crc32c: stored, numbered: Some(header) }) => {
            (2, [stored.into(), header.generation, header.meta_seq, header.prev_header_crc32c.into()])
        }
    }
}

/// The code of a slot's status, and the slot's part of a frame: code, facts, generation, number, own checksum, previous
/// checksum, owner generation. The fields are those of the info under code 12, else those of the facts, which have no owner generation.
pub fn frame_slot(slot: &[u8], at: &Identity, numbered: u32) -> (u32, [u8; HALF]) {
    let (code, info) = validate(slot, at, numbered);
    let (shown, facts) = header_facts(slot, at, numbered);
    let [generation, number, own, previous, owner] = match code {
        12 => [info[0], info[6], info[2], info[3], info[1]],
        _ => [facts[1], facts[2], facts[0], facts[3], 0],
    };
    let part = Slot {
        code: code as u8,
        facts: shown as u8,
        generation,
        number,
        own: own as u32,
        previous: previous as u32,
        owner,
    };
    (code, part.packed())
}

/// The report on a pair; `None` where a status is above 12, for which the reference has no value.
pub fn decide(a: &Side, b: &Side) -> Option<[u8; 5]> {
    Some(report_numbers(&pair::decide(side_status(a)?, side_status(b)?)))
}

fn report_numbers(report: &PairReport) -> [u8; 5] {
    let (winner, index) = winner_numbers(report);
    let next = report.next_write().map_or(0, index_number);
    [winner, index, report.generation_gap.into(), report.chain_break.into(), next]
}

/// The payload of a pair's winner: winner, place and length in its slot, and the statuses and decision that led to it.
pub struct WinnerPayload {
    pub winner: u8,
    pub start: usize,
    pub payload_len: usize,
    pub values_a: [u64; 9],
    pub values_b: [u64; 9],
    pub report: [u8; 7],
}

pub fn winner_payload(a: &[u8], b: &[u8], at: &PairIdentity) -> WinnerPayload {
    let a_status = slot::validate(a, &expect(&at.slot(0), at.numbered));
    let b_status = slot::validate(b, &expect(&at.slot(1), at.numbered));
    let report = pair::decide(a_status, b_status);
    let (winner, start, payload_len) = match report.winner_info() {
        None => (0, 0, 0),
        Some((index, info)) => {
            let slot = if index == SlotIndex::A { a } else { b };
            let payload = info.payload(slot);
            (index_number(index), payload.as_ptr() as usize - slot.as_ptr() as usize, payload.len())
        }
    };
    let [kind, index, gap, broken, next] = report_numbers(&report);
    WinnerPayload {
        winner,
        start,
        payload_len,
        values_a: status_numbers(a, &a_status),
        values_b: status_numbers(b, &b_status),
        report: [code(&a_status) as u8, code(&b_status) as u8, kind, index, gap, broken, next],
    }
}

fn winner_numbers(report: &PairReport) -> (u8, u8) {
    match report.winner {
        Winner::Confirmed(index) => (0, index_number(index)),
        Winner::Unconfirmed(index) => (1, index_number(index)),
        Winner::Lost => (2, 0),
        Winner::Refused => (3, 0),
        Winner::Empty => (4, 0),
        Winner::Fork => (5, 0),
    }
}

pub fn index_number(index: SlotIndex) -> u8 {
    match index {
        SlotIndex::A => 1,
        SlotIndex::B => 2,
    }
}

fn side_status(side: &Side) -> Option<SlotStatus> {
    let mut info = some_info();
    info.generation = side.generation;
    info.header_crc32c = side.header_crc32c;
    info.prev_header_crc32c = side.prev_header_crc32c;
    status(side.status, &info)
}

/// The status of a code, with `info` where that is Valid; `None` for a code above 12.
pub fn status(code: u32, info: &SlotInfo) -> Option<SlotStatus> {
    Some(match code {
        0 => SlotStatus::ReadError,
        1 => SlotStatus::BadLength,
        2 => SlotStatus::Blank,
        3 => SlotStatus::BadMagic,
        4 => SlotStatus::BadHeaderCrc,
        5 => SlotStatus::UnsupportedVersion { major: 3 },
        6 => SlotStatus::Incompatible { flags: 1 },
        7 => SlotStatus::Malformed,
        8 => SlotStatus::Foreign,
        9 => SlotStatus::WrongObject,
        10 => SlotStatus::Misplaced,
        11 => SlotStatus::BadPayloadCrc,
        12 => SlotStatus::Valid(*info),
        _ => return None,
    })
}

/// The info of a slot that was written and read: no other module can make a `SlotInfo`.
pub fn some_info() -> SlotInfo {
    let at =
        Identity { volume0: 0, volume1: 0, object_id: 0, slot_offset: 0, index: 0, log2_slot_size: 9, format_major: 1 };
    let version = Version { generation: 1, owner_generation: 0, prev_header_crc32c: 0, meta_seq: 0, compat_flags: 0 };
    let mut bytes = [0; 512];
    encode(&mut bytes, &at, &version, &[]);
    let SlotStatus::Valid(info) = slot::validate(&bytes, &expect(&at, 0)) else {
        panic!("the reference refuses a slot that it wrote");
    };
    info
}
