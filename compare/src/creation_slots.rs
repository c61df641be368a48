//! What a slot of a store that is being created holds, by its bytes and by what was written to it.

use crate::frames::{nothing, Slot, BAD_HEADER, BAD_MAGIC, BAD_PAYLOAD, BLANK, VALID};
use crate::history_pair::Whole;
use crate::implementation::Implementation;
use crate::passing::{header_passes, payload_passes, stored_payload};
use crate::sample::{HEADER, HEADER_CRC, MAGIC};
use crate::stored::get;

const SLOT_MAGIC: &[u8] = b"SIOSLOT\0";

pub enum Held {
    /// A header of zeros.
    Blank,
    /// Zeros in a part of the magic.
    BrokenMagic,
    /// A header that was not written so, with this checksum.
    TornHeader(u32),
    /// The header of a write over another payload.
    TornPayload(Whole),
    Whole(Whole),
    /// What passes its checksum and was not written so.
    Accident,
}

impl Held {
    /// `written` has what was written to the slot since it was zeros.
    pub fn of(tried: &dyn Implementation, slot: &[u8], written: &[Whole]) -> Self {
        let header = &slot[..HEADER];
        if header.iter().all(|byte| *byte == 0) {
            return Self::Blank;
        }
        if header[MAGIC] != *SLOT_MAGIC {
            return Self::BrokenMagic;
        }
        match written.iter().find(|whole| whole.header == header) {
            None if header_passes(tried, slot) => Self::Accident,
            None => Self::TornHeader(get(header, HEADER_CRC) as u32),
            Some(whole) if slot[stored_payload(slot)] == whole.record => Self::Whole(whole.clone()),
            Some(_) if payload_passes(tried, slot) => Self::Accident,
            Some(whole) => Self::TornPayload(whole.clone()),
        }
    }

    pub fn whole(&self) -> Option<&Whole> {
        match self {
            Self::Whole(whole) => Some(whole),
            _ => None,
        }
    }

    /// Its part of a frame; of an accident nothing is said.
    pub fn part(&self) -> Option<Slot> {
        match self {
            Self::Blank => Some(nothing(BLANK)),
            Self::BrokenMagic => Some(nothing(BAD_MAGIC)),
            Self::TornHeader(own) => Some(Slot { facts: 1, own: *own, ..nothing(BAD_HEADER) }),
            Self::TornPayload(whole) => Some(shown(BAD_PAYLOAD, whole)),
            Self::Whole(whole) => Some(Slot { owner: whole.written().owner_generation, ..shown(VALID, whole) }),
            Self::Accident => None,
        }
    }
}

/// A slot whose header passes; the owner is given of a Valid one.
fn shown(code: u8, whole: &Whole) -> Slot {
    Slot {
        code,
        facts: 2,
        generation: whole.generation(),
        number: whole.number(),
        own: whole.own(),
        previous: whole.previous(),
        owner: 0,
    }
}
