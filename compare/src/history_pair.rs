//! A pair under the writes of a history: its slots, and what must be known of the writes to say what is answered.

use crate::answers::{Left, ReadBack};
use crate::cut_records::Kind;
use crate::cut_store;
use crate::ffi_pair::PairIdentity;
use crate::ffi_plan::Written;
use crate::frames::VALID;
use crate::implementation::Implementation;
use crate::passing::{header_passes, payload_passes, stored_payload};
use crate::sample::{COMPAT_FLAGS, GENERATION, HEADER, HEADER_CRC, NUMBER, OWNER, PREVIOUS_CRC};
use crate::stored::get;
use crate::tear::Tear;
use std::mem;

/// A header, and the record that it was written with.
#[derive(Clone)]
pub struct Whole {
    pub header: Vec<u8>,
    pub record: Vec<u8>,
}

/// A write of the slot that is not its pair's winner; finished where it has no tear.
pub struct Write {
    pub pair: usize,
    pub bytes: Vec<u8>,
    /// Its header was given the checksum that the winner has as its previous one.
    pub same_checksum: bool,
    pub tear: Option<Tear>,
}

/// The header in the slot that does not win.
#[derive(Clone, Copy, PartialEq)]
pub enum Header {
    /// The slot was never written.
    Blank,
    /// That of the version that stood whole in the slot last, the one before the winner.
    Older,
    /// That of a write that was cut, the place in `begun`.
    Begun(usize),
    /// Mixed of several; it fails its checksum.
    Torn,
}

/// What passes its checksum in a slot as a cut left it and is not what the checksum was taken of, and a checksum that is
/// another one's.
#[derive(Clone, Copy, PartialEq)]
pub enum Accident {
    /// A mixed header.
    Header,
    /// The header of an earlier write that was cut, which a later one had changed.
    TornAgain,
    /// Another payload under the header of a write that was cut.
    NewPayload,
    /// Another payload under the older header.
    OldPayload,
    /// By chance the own checksum of a write that is cut is the one that the winner has as its previous one.
    SameChecksum,
    /// In a page's first write, while pair 0 has no record.
    FirstPage,
    /// In pair 0's first write.
    FirstVolume,
    /// Of a page's payload, while pair 0 has no record.
    Zeroed,
}

impl Accident {
    pub const ALL: &'static [Self] = &[
        Self::Header,
        Self::TornAgain,
        Self::NewPayload,
        Self::OldPayload,
        Self::SameChecksum,
        Self::FirstPage,
        Self::FirstVolume,
        Self::Zeroed,
    ];

    pub fn name(self) -> &'static str {
        match self {
            Self::Header => "mixed header",
            Self::TornAgain => "header of a cut write that stands again",
            Self::NewPayload => "payload under the header of a cut write",
            Self::OldPayload => "payload under the older header",
            Self::SameChecksum => "checksum that the winner has as its previous one",
            Self::FirstPage => "header or payload of a page's first write",
            Self::FirstVolume => "header or payload of pair 0's first write",
            Self::Zeroed => "payload of a page with some zeros",
        }
    }

    /// What is promised holds after it.
    pub fn is_harmless(self) -> bool {
        matches!(self, Self::OldPayload | Self::SameChecksum | Self::FirstPage | Self::Zeroed)
    }
}

pub struct Pair {
    pub kind: Kind,
    pub operator: u8,
    pub at: PairIdentity,
    pub slots: [Vec<u8>; 2],
    /// 0 for A, 1 for B.
    pub winner: usize,
    pub current: Whole,
    /// What stood whole in the other slot last.
    pub older: Option<Whole>,
    /// The writes to the other slot since then, each of them cut.
    pub begun: Vec<Whole>,
    pub header: Header,
    /// What the other slot holds.
    pub left: Left,
    /// The record that was finished last, and after it those whose writes were cut since.
    pub known: Vec<Vec<u8>>,
}

impl Whole {
    /// What a slot holds whose header and payload are whole.
    pub fn of(slot: &[u8]) -> Self {
        Self { header: slot[..HEADER].to_vec(), record: slot[stored_payload(slot)].to_vec() }
    }

    pub fn generation(&self) -> u64 {
        get(&self.header, GENERATION)
    }

    pub fn number(&self) -> u64 {
        get(&self.header, NUMBER)
    }

    pub fn own(&self) -> u32 {
        get(&self.header, HEADER_CRC) as u32
    }

    pub fn previous(&self) -> u32 {
        get(&self.header, PREVIOUS_CRC) as u32
    }

    pub fn written(&self) -> Written {
        let compat_flags = get(&self.header, COMPAT_FLAGS) as u32;
        Written { owner_generation: get(&self.header, OWNER), compat_flags }
    }
}

impl Write {
    /// Where its record ends.
    pub fn end(&self) -> usize {
        stored_payload(&self.bytes).end
    }

    /// The slot that is left of the write and the old bytes.
    fn left(&self, old: &[u8]) -> Vec<u8> {
        self.tear.map_or_else(|| self.bytes.clone(), |tear| tear.left(&self.bytes, old))
    }
}

impl Pair {
    /// A pair of a sound store.
    pub fn new(pair: cut_store::Pair) -> Self {
        let cut_store::Pair { kind, operator, at, slots, winner, blank, record, .. } = pair;
        Self {
            kind,
            operator,
            at,
            winner,
            current: Whole::of(&slots[winner]),
            older: (!blank).then(|| Whole::of(&slots[1 - winner])),
            slots,
            begun: Vec::new(),
            header: if blank { Header::Blank } else { Header::Older },
            left: Left::Old,
            known: vec![record],
        }
    }

    /// The slot that does not win.
    pub fn other(&self) -> usize {
        1 - self.winner
    }

    /// The other slot holds a write in flight.
    pub fn is_named(&self) -> bool {
        matches!(self.left, Left::TornHeader | Left::TornPayload)
    }

    /// The header in the other slot is this one but for the first byte of its checksum.
    pub fn shows_but_for_a_byte(&self, whole: &Whole) -> bool {
        let header = &self.slots[self.other()][..HEADER];
        let rest = HEADER_CRC.start + 1..;
        self.header == Header::Torn && header[rest.clone()] == whole.header[rest]
    }

    /// The numbers of the winner and, where its header passes, of the other slot.
    pub fn numbers(&self) -> impl Iterator<Item = u64> + '_ {
        let other = match self.header {
            Header::Blank | Header::Torn => None,
            Header::Older => self.older.as_ref(),
            Header::Begun(at) => Some(&self.begun[at]),
        };
        [Some(&self.current), other].into_iter().flatten().map(Whole::number)
    }

    /// The other slot's status, and what its verdict says.
    pub fn answered(&self) -> (u8, u8) {
        self.left.answered(self.header == Header::Blank)
    }

    pub fn promised(&self) -> ReadBack {
        let mut statuses = [VALID; 2];
        statuses[self.other()] = self.answered().0;
        ReadBack::promised(self.winner, statuses, &self.current.record)
    }

    /// Writes the other slot, and answers what that leaves of it; after an accident under a header that is not the older
    /// one nothing more is known.
    pub fn write(&mut self, tried: &dyn Implementation, write: &Write) -> Result<Left, Accident> {
        let begun = Whole::of(&write.bytes);
        if write.tear.is_none() {
            self.known.clear();
        }
        self.known.push(begun.record.clone());
        self.begun.push(begun);
        let slot = self.other();
        let after = write.left(&self.slots[slot]);
        let before = mem::replace(&mut self.slots[slot], after);
        self.header = self.header_left(tried, &before[..HEADER])?;
        self.left = self.payload_left(tried)?;
        let left = self.left;
        if let (Left::New, Header::Begun(at)) = (left, self.header) {
            self.turn(at);
        }
        Ok(left)
    }

    /// `before` is the header before the write that was begun last.
    fn header_left(&self, tried: &dyn Implementation, before: &[u8]) -> Result<Header, Accident> {
        let slot = &self.slots[self.other()];
        let header = &slot[..HEADER];
        let last = self.begun.len() - 1;
        if header == self.begun[last].header {
            Ok(Header::Begun(last))
        } else if header == before {
            Ok(self.header)
        } else if self.older.as_ref().is_some_and(|older| header == older.header) {
            Ok(Header::Older)
        } else if !header_passes(tried, slot) {
            Ok(Header::Torn)
        } else if self.begun.iter().any(|begun| header == begun.header) {
            Err(Accident::TornAgain)
        } else {
            Err(Accident::Header)
        }
    }

    fn payload_left(&self, tried: &dyn Implementation) -> Result<Left, Accident> {
        let slot = &self.slots[self.other()];
        let holds = |whole: &Whole| slot[stored_payload(slot)] == whole.record;
        match (self.header, &self.older) {
            (Header::Begun(at), _) if holds(&self.begun[at]) => Ok(Left::New),
            (Header::Begun(_), _) if payload_passes(tried, slot) => Err(Accident::NewPayload),
            (Header::Begun(_), _) => Ok(Left::TornPayload),
            (Header::Older, Some(older)) if holds(older) => Ok(Left::Old),
            (Header::Older, _) if payload_passes(tried, slot) => Ok(Left::OlderPasses),
            (Header::Older, _) => Ok(Left::OlderPayload),
            (Header::Blank, _) => Ok(Left::Old),
            (Header::Torn, _) if self.shows_previous(slot) => Ok(Left::OlderHeader),
            (Header::Torn, _) => Ok(Left::TornHeader),
        }
    }

    /// The slot's own checksum is the one that the winner has as its previous one; a first version has none.
    fn shows_previous(&self, slot: &[u8]) -> bool {
        self.current.generation() >= 2 && get(slot, HEADER_CRC) == self.current.previous().into()
    }

    /// The other slot's write, whole by now, wins.
    fn turn(&mut self, at: usize) {
        let new = self.begun.swap_remove(at);
        self.begun.clear();
        self.older = Some(mem::replace(&mut self.current, new));
        self.winner = self.other();
        self.header = Header::Older;
        self.left = Left::Old;
    }
}
