//! The slot functions to measure, on slots with a full payload.

use crate::bench::{cells, random_bytes, Contestant, Table, AS_IT_PICKS, OURS, PORTABLE};
use crate::ffi::{self, Identity, Version};
use crate::portable::slot as portable_slot;
use crate::rng::Rng;
use crate::sample::{random_identity, HEADER};
use crate::slot;
use crate::slot_reference;
use std::cell::Cell;

const SIZES: [usize; 3] = [512, 4096, 65_536];

const FORMAT: u16 = 2;
const NUMBERED: u32 = 1;

const VERSION: Version =
    Version { generation: 2, owner_generation: 1, prev_header_crc32c: 0x1234_5678, meta_seq: 3, compat_flags: 0 };

/// A written slot, with what each contestant writes and reads it with.
pub struct Input {
    slot: Vec<u8>,
    payload: Vec<u8>,
    at: Identity,
    fields: slot::SlotFields,
    expect: slot::Expect,
    portable_fields: portable_slot::SlotFields,
    portable_expect: portable_slot::Expect,
}

pub const ENCODE: Table<Input> = Table {
    title: "encode",
    unit: "bytes",
    sizes: &SIZES,
    input: written,
    contestants: &[
        Contestant { name: AS_IT_PICKS, call: encode },
        Contestant { name: PORTABLE, call: portable_encode },
        Contestant { name: OURS, call: our_encode },
    ],
};

pub const VALIDATE: Table<Input> = Table {
    title: "validate",
    unit: "bytes",
    sizes: &SIZES,
    input: written,
    contestants: &[
        Contestant { name: AS_IT_PICKS, call: validate },
        Contestant { name: PORTABLE, call: portable_validate },
        Contestant { name: OURS, call: our_validate },
    ],
};

pub const HEADER_FACTS: Table<Input> = Table {
    title: "header_facts",
    unit: "bytes",
    sizes: &SIZES,
    input: written,
    contestants: &[
        Contestant { name: AS_IT_PICKS, call: header_facts },
        Contestant { name: PORTABLE, call: portable_header_facts },
        Contestant { name: OURS, call: our_header_facts },
    ],
};

fn written(rng: &mut Rng, size: usize) -> Input {
    let at = random_identity(rng, size.ilog2() as u8, FORMAT);
    let fields = slot_reference::fields(&at, &VERSION);
    let expect = slot_reference::expect(&at, NUMBERED);
    let mut input = Input {
        slot: vec![0; size],
        payload: random_bytes(rng, size - HEADER),
        at,
        portable_fields: portable_fields(&fields),
        portable_expect: portable_expect(&expect),
        fields,
        expect,
    };
    encode(&mut input);
    input
}

fn portable_fields(fields: &slot::SlotFields) -> portable_slot::SlotFields {
    portable_slot::SlotFields {
        volume_uuid: fields.volume_uuid,
        object_id: fields.object_id,
        generation: fields.generation,
        owner_generation: fields.owner_generation,
        slot_offset: fields.slot_offset,
        slot_index: portable_index(fields.slot_index),
        log2_slot_size: fields.log2_slot_size,
        prev_header_crc32c: fields.prev_header_crc32c,
        format_major: fields.format_major,
        meta_seq: fields.meta_seq,
        compat_flags: fields.compat_flags,
    }
}

pub fn portable_expect(expect: &slot::Expect) -> portable_slot::Expect {
    portable_slot::Expect {
        volume_uuid: expect.volume_uuid,
        object_id: expect.object_id,
        slot_offset: expect.slot_offset,
        slot_index: portable_index(expect.slot_index),
        log2_slot_size: expect.log2_slot_size,
        format_major: expect.format_major,
        numbered: expect.numbered,
    }
}

fn portable_index(index: slot::SlotIndex) -> portable_slot::SlotIndex {
    match index {
        slot::SlotIndex::A => portable_slot::SlotIndex::A,
        slot::SlotIndex::B => portable_slot::SlotIndex::B,
    }
}

// Each contestant answers the slot's generation and checksum, or 0 where it refuses; the writers only the checksum.

fn answer(generation: u64, crc: u32) -> u64 {
    generation << 32 | u64::from(crc)
}

fn encode(input: &mut Input) -> u64 {
    slot::encode(&mut input.slot, &input.fields, &input.payload).map_or(0, u64::from)
}

fn portable_encode(input: &mut Input) -> u64 {
    portable_slot::encode(&mut input.slot, &input.portable_fields, &input.payload).map_or(0, u64::from)
}

fn our_encode(input: &mut Input) -> u64 {
    let crc = Cell::new(0);
    ffi::encode(cells(&mut input.slot), &input.at, &VERSION, cells(&mut input.payload), &crc);
    crc.get().into()
}

fn validate(input: &mut Input) -> u64 {
    match slot::validate(&input.slot, &input.expect) {
        slot::SlotStatus::Valid(info) => answer(info.generation, info.header_crc32c),
        _ => 0,
    }
}

fn portable_validate(input: &mut Input) -> u64 {
    match portable_slot::validate(&input.slot, &input.portable_expect) {
        portable_slot::SlotStatus::Valid(info) => answer(info.generation, info.header_crc32c),
        _ => 0,
    }
}

fn our_validate(input: &mut Input) -> u64 {
    let found = Cell::new([0; 9]);
    ffi::validate(cells(&mut input.slot), &input.at, NUMBERED, &found);
    let [generation, _, crc, ..] = found.get();
    answer(generation, crc as u32)
}

fn header_facts(input: &mut Input) -> u64 {
    match slot::header_facts(&input.slot, &input.expect) {
        Some(slot::HeaderFacts { stored_header_crc32c: stored, numbered: Some(header) }) => {
            answer(header.generation, stored)
        }
        _ => 0,
    }
}

fn portable_header_facts(input: &mut Input) -> u64 {
    match portable_slot::header_facts(&input.slot, &input.portable_expect) {
        Some(portable_slot::HeaderFacts { stored_header_crc32c: stored, numbered: Some(header) }) => {
            answer(header.generation, stored)
        }
        _ => 0,
    }
}

fn our_header_facts(input: &mut Input) -> u64 {
    let found = Cell::new([0; 4]);
    ffi::header_facts(cells(&mut input.slot), &input.at, NUMBERED, &found);
    let [stored, generation, ..] = found.get();
    answer(generation, stored as u32)
}
