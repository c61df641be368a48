//! What reads more than a slot's status: a slot's part of a frame, and a pair's winner with its payload, on slots with a full payload.

use crate::bench::{cells, random_bytes, Contestant, Table, AS_IT_PICKS, OURS, PORTABLE};
use crate::bench_slots::portable_expect;
use crate::ffi::{self, Version};
use crate::ffi_pair::{self, Answered, PairIdentity};
use crate::frames::{Slot, HALF};
use crate::pair;
use crate::portable::pair as portable_pair;
use crate::portable::slot as portable_slot;
use crate::rng::Rng;
use crate::sample::HEADER;
use crate::slot;
use crate::slot_reference;
use std::cell::Cell;

const SIZES: [usize; 3] = [512, 4096, 65_536];

const NUMBERED: u32 = 1;

/// Generation 1 in slot A and generation 2 in slot B, with what each contestant reads them with.
pub struct Input {
    a: Vec<u8>,
    b: Vec<u8>,
    at: PairIdentity,
    expect: [slot::Expect; 2],
    portable_expect: [portable_slot::Expect; 2],
}

pub const FRAME_SLOT: Table<Input> = Table {
    title: "a slot's part of a frame, beside validate and header_facts one after the other",
    unit: "bytes",
    sizes: &SIZES,
    input: written,
    contestants: &[
        Contestant { name: AS_IT_PICKS, call: both },
        Contestant { name: PORTABLE, call: portable_both },
        Contestant { name: OURS, call: our_part },
    ],
};

pub const WINNER_PAYLOAD: Table<Input> = Table {
    title: "the winner's payload, beside validate of both slots, decide and payload",
    unit: "bytes a slot",
    sizes: &SIZES,
    input: written,
    contestants: &[
        Contestant { name: AS_IT_PICKS, call: payload },
        Contestant { name: PORTABLE, call: portable_payload },
        Contestant { name: OURS, call: our_payload },
    ],
};

fn written(rng: &mut Rng, size: usize) -> Input {
    let at = PairIdentity {
        volume0: rng.any(),
        volume1: rng.any(),
        object_id: rng.any(),
        offsets: [8192, 8192 + size as u64],
        log2_slot_size: size.ilog2() as u8,
        format_major: 2,
        numbered: NUMBERED,
    };
    let mut slots = [vec![0; size], vec![0; size]];
    let mut prev_header_crc32c = 0;
    for (index, slot) in slots.iter_mut().enumerate() {
        let generation = index as u64 + 1;
        let version =
            Version { generation, owner_generation: 1, prev_header_crc32c, meta_seq: generation, compat_flags: 0 };
        let fields = slot_reference::fields(&at.slot(index as u32), &version);
        prev_header_crc32c = slot::encode(slot, &fields, &random_bytes(rng, size - HEADER)).unwrap_or(0);
    }
    let [a, b] = slots;
    let expect = [slot_reference::expect(&at.slot(0), NUMBERED), slot_reference::expect(&at.slot(1), NUMBERED)];
    Input { a, b, at, portable_expect: [portable_expect(&expect[0]), portable_expect(&expect[1])], expect }
}

// Of a slot each contestant answers the header's checksum, of a pair where the payload of B lies, or 0.

fn both(input: &mut Input) -> u64 {
    let status = slot::validate(&input.b, &input.expect[1]);
    let facts = slot::header_facts(&input.b, &input.expect[1]);
    match (status, facts) {
        (slot::SlotStatus::Valid(info), Some(facts)) if info.header_crc32c == facts.stored_header_crc32c => {
            info.header_crc32c.into()
        }
        _ => 0,
    }
}

fn portable_both(input: &mut Input) -> u64 {
    let status = portable_slot::validate(&input.b, &input.portable_expect[1]);
    let facts = portable_slot::header_facts(&input.b, &input.portable_expect[1]);
    match (status, facts) {
        (portable_slot::SlotStatus::Valid(info), Some(facts)) if info.header_crc32c == facts.stored_header_crc32c => {
            info.header_crc32c.into()
        }
        _ => 0,
    }
}

fn our_part(input: &mut Input) -> u64 {
    let part = Cell::new([0; HALF]);
    ffi::frame_slot(cells(&mut input.b), &input.at.slot(1), NUMBERED, &part);
    let part = part.get();
    Slot::read(&part).own.into()
}

fn place(slot: &[u8], part: &[u8]) -> u64 {
    let start = part.as_ptr() as usize - slot.as_ptr() as usize;
    (start as u64) << 32 | part.len() as u64
}

fn payload(input: &mut Input) -> u64 {
    let [a, b] = &input.expect;
    let report = pair::decide(slot::validate(&input.a, a), slot::validate(&input.b, b));
    match report.winner_info() {
        Some((slot::SlotIndex::B, info)) => place(&input.b, info.payload(&input.b)),
        _ => 0,
    }
}

fn portable_payload(input: &mut Input) -> u64 {
    let [a, b] = &input.portable_expect;
    let report = portable_pair::decide(portable_slot::validate(&input.a, a), portable_slot::validate(&input.b, b));
    match report.winner_info() {
        Some((portable_slot::SlotIndex::B, info)) => place(&input.b, info.payload(&input.b)),
        _ => 0,
    }
}

fn our_payload(input: &mut Input) -> u64 {
    let answered = Answered {
        values_a: &Cell::new([0; 9]),
        values_b: &Cell::new([0; 9]),
        report: &Cell::new([0; 7]),
        start: &Cell::new(0),
        payload_len: &Cell::new(0),
    };
    match ffi_pair::winner_payload(cells(&mut input.a), cells(&mut input.b), &input.at, &answered) {
        2 => (answered.start.get() as u64) << 32 | answered.payload_len.get() as u64,
        _ => 0,
    }
}
