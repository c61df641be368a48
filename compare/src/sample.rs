//! Slots to read: written by the reference, damaged, and sealed again.

use crate::crc32c::{crc32c, crc32c_append};
use crate::ffi::{Identity, Version};
use crate::part::{number, Fields};
use crate::rng::Rng;
use crate::slot_reference;
use std::ops::Range;

pub const HEADER: usize = 128;
pub const SMALLEST_LOG2: u8 = 9;

pub const MAGIC: Range<usize> = 0..8;
pub const HEADER_CRC: Range<usize> = 8..12;
pub const HEADER_LEN: Range<usize> = 12..14;
pub const FORMAT: Range<usize> = 14..16;
pub const INCOMPAT_FLAGS: Range<usize> = 16..20;
pub const RO_COMPAT_FLAGS: Range<usize> = 20..24;
pub const COMPAT_FLAGS: Range<usize> = 24..28;
pub const PAYLOAD_CRC: Range<usize> = 28..32;
pub const VOLUME: Range<usize> = 32..48;
pub const OBJECT: Range<usize> = 48..56;
pub const GENERATION: Range<usize> = 56..64;
pub const OFFSET: Range<usize> = 64..72;
pub const PAYLOAD_LEN: Range<usize> = 72..76;
pub const INDEX: Range<usize> = 76..77;
pub const COUNT: Range<usize> = 77..78;
pub const LOG2: Range<usize> = 78..79;
pub const ZERO_79: Range<usize> = 79..80;
pub const PREVIOUS_CRC: Range<usize> = 80..84;
pub const ZERO_84: Range<usize> = 84..88;
pub const OWNER: Range<usize> = 88..96;
pub const NUMBER: Range<usize> = 96..104;
pub const ZERO_104: Range<usize> = 104..128;

/// Indices of the interface: 0 is A, anything else B.
const INDICES: [u32; 7] = [0, 0, 0, 1, 2, 0x100, u32::MAX];

/// Numbers of the interface that say yes.
pub const YES: [u32; 6] = [1, 2, 0x100, 0x1_0000, 0x8000_0000, u32::MAX];

/// What a written slot is like.
#[derive(Clone, Copy)]
pub struct Form {
    pub log2: u8,
    pub format: u16,
    pub numbered: bool,
    pub payload_len: usize,
}

impl Form {
    /// How many bytes a payload may have.
    pub fn room(&self) -> usize {
        (1 << self.log2) - HEADER
    }
}

/// The bytes of a slot, with the identity and size that it is read with.
#[derive(Clone)]
pub struct Sample {
    pub slot: Vec<u8>,
    pub at: Identity,
    pub numbered: u32,
}

impl Sample {
    /// A Valid slot.
    pub fn written(rng: &mut Rng, form: &Form) -> Self {
        let at = random_identity(rng, form.log2, form.format);
        let numbered = if form.numbered { rng.pick(&YES) } else { 0 };
        let mut sample = Self { slot: vec![0; 1 << form.log2], at, numbered };
        sample.write(rng, form.payload_len);
        sample
    }

    /// Writes another version with a payload of `payload_len` bytes.
    pub fn write(&mut self, rng: &mut Rng, payload_len: usize) {
        let payload = rng.bytes(payload_len);
        let with_number = self.at.format_major == 2 && self.numbered != 0;
        let version = Version {
            generation: rng.any().max(1),
            meta_seq: if with_number { rng.any().max(1) } else { 0 },
            ..random_version(rng)
        };
        let written = slot_reference::encode(&mut self.slot, &self.at, &version, &payload);
        assert!(written.refusal == 0, "the reference refuses to write a slot");
    }

    /// The number stored in a field of at most 8 bytes; 0 where the slot ends before it.
    pub fn get(&self, field: Range<usize>) -> u64 {
        let mut number = [0; 8];
        if let Some(bytes) = self.slot.get(field) {
            number[..bytes.len()].copy_from_slice(bytes);
        }
        u64::from_le_bytes(number)
    }

    /// Stores a number in a field of at most 8 bytes; nothing where the slot ends before it.
    pub fn set(&mut self, field: Range<usize>, value: u64) {
        let width = field.len();
        if let Some(bytes) = self.slot.get_mut(field) {
            bytes.copy_from_slice(&value.to_le_bytes()[..width]);
        }
    }

    /// Changes one bit; nothing where the slot ends before it.
    pub fn flip(&mut self, bit: usize) {
        if let Some(byte) = self.slot.get_mut(bit / 8) {
            *byte ^= 1 << (bit % 8);
        }
    }

    /// Changes one bit of the bytes `range`.
    pub fn flip_in(&mut self, rng: &mut Rng, range: Range<usize>) {
        let bit = 8 * range.start + rng.below(8 * range.len());
        self.flip(bit);
    }

    pub fn header_len(&self) -> usize {
        self.get(HEADER_LEN) as usize
    }

    /// Where the payload lies by the stored lengths, if that is in the slot.
    pub fn payload(&self) -> Option<Range<usize>> {
        let start = self.header_len();
        let end = start + self.get(PAYLOAD_LEN) as usize;
        (end <= self.slot.len()).then_some(start..end)
    }

    /// Makes both checksums fit the bytes; a blank header stays blank.
    pub fn seal(&mut self) {
        let header = self.slot.iter().take(HEADER);
        if header.copied().any(|byte| byte != 0) {
            self.seal_payload();
            self.seal_header();
        }
    }

    pub fn seal_payload(&mut self) {
        if let Some(payload) = self.payload() {
            let crc = crc32c(&self.slot[payload]);
            self.set(PAYLOAD_CRC, crc.into());
        }
    }

    /// Over the stored header length, or over the nearest length that can be.
    pub fn seal_header(&mut self) {
        let len = self.header_len().min(self.slot.len());
        self.seal_header_over(len.max(HEADER_CRC.end));
    }

    pub fn seal_header_over(&mut self, len: usize) {
        if len <= self.slot.len() {
            let crc = crc32c_append(crc32c(&self.slot[MAGIC]), &[0; 4]);
            let crc = crc32c_append(crc, &self.slot[HEADER_CRC.end..len]);
            self.set(HEADER_CRC, crc.into());
        }
    }

    /// The identity and size, with their names in the interface.
    pub fn inputs(&self) -> Fields {
        let mut inputs = identity_fields(&self.at);
        inputs.push(("numbered", number(self.numbered)));
        inputs
    }
}

pub fn identity_fields(at: &Identity) -> Fields {
    vec![
        ("volume0", number(at.volume0)),
        ("volume1", number(at.volume1)),
        ("object_id", number(at.object_id)),
        ("slot_offset", number(at.slot_offset)),
        ("index", number(at.index)),
        ("log2_slot_size", number(at.log2_slot_size)),
        ("format_major", number(at.format_major)),
    ]
}

pub fn random_identity(rng: &mut Rng, log2_slot_size: u8, format_major: u16) -> Identity {
    Identity {
        volume0: rng.any(),
        volume1: rng.any(),
        object_id: rng.any(),
        slot_offset: rng.any(),
        index: rng.pick(&INDICES),
        log2_slot_size,
        format_major,
    }
}

pub fn random_version(rng: &mut Rng) -> Version {
    Version {
        generation: rng.any(),
        owner_generation: rng.any(),
        prev_header_crc32c: rng.any() as u32,
        meta_seq: rng.any(),
        compat_flags: rng.any() as u32,
    }
}

/// Small for the most part: 512 bytes, often 1,024, seldom more.
pub fn random_log2(rng: &mut Rng) -> u8 {
    match rng.below(1024) {
        seldom @ 0..=5 => 11 + seldom as u8,
        6..=250 => 10,
        _ => SMALLEST_LOG2,
    }
}

/// At the edges of what fits, or anywhere between.
pub fn random_payload_len(rng: &mut Rng, room: usize) -> usize {
    match rng.below(8) {
        0 => rng.pick(&[0, 1, room - 1, room]),
        _ => rng.below(room + 1),
    }
}
