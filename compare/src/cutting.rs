//! One write cut in many ways: what is answered to each slot that is left, beside what the cut theorem promises.

use crate::answers::{confirmed, fill_frame, owners_differ, verdict, Answers, Left, ReadBack, IN_FLIGHT, NOTHING};
use crate::cut_store::{Pair, Write};
use crate::frames::{unread, BLANK, VALID};
use crate::implementation::Implementation;
use crate::judge_reference::VERDICT;
use crate::part::{number, Fields};
use crate::passing::{header_passes, payload_passes, stored_payload};
use crate::sample::{HEADER, HEADER_CRC};
use crate::stored::get;
use crate::tear::Tear;
use crate::value::hex;

/// What passes its checksum and is not what the checksum was taken of.
#[derive(Clone, Copy, PartialEq)]
pub enum Accident {
    /// A header that is neither old nor new.
    Header,
    /// Another payload under the new header.
    NewPayload,
    /// Another payload under the old header.
    OldPayload,
}

impl Accident {
    pub const ALL: &'static [Self] = &[Self::Header, Self::NewPayload, Self::OldPayload];
    /// Those that the proof needs left out.
    pub const OF_THE_NEW: &'static [Self] = &[Self::Header, Self::NewPayload];

    pub fn name(self) -> &'static str {
        match self {
            Self::Header => "torn header",
            Self::NewPayload => "payload under the new header",
            Self::OldPayload => "payload under the old header",
        }
    }
}

/// The store while a write is cut.
pub struct Cutting<'a> {
    tried: &'a dyn Implementation,
    store: &'a [Pair],
    write: &'a Write,
    /// Those of the written pair, one of them as the cut left it.
    slots: [Vec<u8>; 2],
    frames: Vec<u8>,
}

impl<'a> Cutting<'a> {
    pub fn new(tried: &'a dyn Implementation, store: &'a [Pair], write: &'a Write) -> Self {
        let slots = store[write.pair].slots.clone();
        let frames = unread(store.iter().map(|pair| pair.operator));
        let mut cutting = Self { tried, store, write, slots, frames };
        for at in 0..store.len() {
            for slot in 0..2 {
                cutting.fill_frame(at, slot);
            }
        }
        cutting
    }

    fn pair(&self) -> &'a Pair {
        &self.store[self.write.pair]
    }

    fn fill_frame(&mut self, at: usize, slot: usize) -> u32 {
        let pair = &self.store[at];
        let stored = if at == self.write.pair { &self.slots[slot] } else { &pair.slots[slot] };
        fill_frame(self.tried, &mut self.frames, (at, slot), &pair.at, stored)
    }

    /// The written slot before the write.
    fn old(&self) -> &'a [u8] {
        &self.pair().slots[self.write.slot]
    }

    /// The written slot as the cut left it.
    fn cut(&self) -> &[u8] {
        &self.slots[self.write.slot]
    }

    /// Cuts the write anew.
    pub fn tear(&mut self, tear: Tear) {
        self.slots[self.write.slot] = tear.left(&self.write.new, self.old());
    }

    pub fn is_untouched(&self) -> bool {
        self.cut() == self.old()
    }

    pub fn left(&self) -> Left {
        let (cut, old, new) = (self.cut(), self.old(), &self.write.new[..]);
        let pair = self.pair();
        if cut[..HEADER] == new[..HEADER] {
            if cut[HEADER..].starts_with(&self.write.record) {
                Left::New
            } else {
                Left::TornPayload
            }
        } else if cut[..HEADER] == old[..HEADER] {
            if cut[stored_payload(old)] == old[stored_payload(old)] {
                Left::Old
            } else if payload_passes(self.tried, cut) {
                Left::OlderPasses
            } else {
                Left::OlderPayload
            }
        } else if get(cut, HEADER_CRC) == pair.previous.into() && pair.generation >= 2 {
            Left::OlderHeader
        } else {
            Left::TornHeader
        }
    }

    pub fn accident(&self, left: Left) -> Option<Accident> {
        match left {
            Left::TornHeader | Left::OlderHeader => header_passes(self.tried, self.cut()).then_some(Accident::Header),
            Left::TornPayload => payload_passes(self.tried, self.cut()).then_some(Accident::NewPayload),
            Left::OlderPasses => Some(Accident::OldPayload),
            Left::Old | Left::OlderPayload | Left::New => None,
        }
    }

    /// The clean mark that the judge is handed: that of pair 0's last written record.
    pub fn mark(&self, left: Left) -> bool {
        if left == Left::New {
            self.write.mark
        } else {
            self.write.marked
        }
    }

    /// The mark counts: it is set, and no write of pair 0 is in flight.
    pub fn counts(&self, left: Left) -> bool {
        let (_, says) = left.answered(self.pair().blank);
        self.mark(left) && (self.write.pair != 0 || says != IN_FLIGHT)
    }

    pub fn promised(&self, left: Left) -> Answers {
        let Write { pair: at, slot, record, .. } = self.write;
        let pair = self.pair();
        let (status, says) = left.answered(pair.blank);
        let (winner, record) = if left == Left::New { (*slot, record) } else { (pair.winner, &pair.record) };
        let mut statuses = [VALID; 2];
        statuses[*slot] = status;
        let mut verdicts: Vec<u8> = self.store.iter().flat_map(|pair| verdict(pair.winner, NOTHING)).collect();
        verdicts[VERDICT * at..VERDICT * (at + 1)].copy_from_slice(&verdict(winner, says));
        let healed = (says == IN_FLIGHT).then_some((*at, *slot));
        let others = self.store.iter().enumerate().filter(|(other, _)| other != at);
        let winners = others.map(|(_, pair)| &pair.slots[pair.winner]).chain([&self.slots[winner]]);
        Answers {
            status: status.into(),
            judged: confirmed(verdicts, healed, self.counts(left), owners_differ(winners)),
            read: ReadBack::promised(winner, statuses, record),
        }
    }

    pub fn found(&mut self, left: Left) -> Answers {
        let status = self.fill_frame(self.write.pair, self.write.slot);
        Answers {
            status,
            judged: self.tried.judge(&self.frames, self.mark(left)),
            read: ReadBack::found(self.tried, self.pair().kind, &self.pair().at, &self.slots),
        }
    }

    pub fn fields(&self, left: Left) -> Fields {
        let Write { pair: at, slot, new, .. } = self.write;
        let pair = self.pair();
        vec![
            ("pairs", number(self.store.len())),
            ("written pair", number(*at)),
            ("operator", number(pair.operator)),
            ("written slot", number(slot + 1)),
            ("volume0", number(pair.at.volume0)),
            ("volume1", number(pair.at.volume1)),
            ("object_id", number(pair.at.object_id)),
            ("slot_offset", number(pair.at.offsets[*slot])),
            ("log2_slot_size", number(pair.at.log2_slot_size)),
            ("other slot", hex(&pair.slots[1 - slot])),
            ("slot before", hex(&pair.slots[*slot])),
            ("slot written", hex(new)),
            ("slot as cut", hex(self.cut())),
            ("frames", hex(&self.frames)),
            ("clean", number(u8::from(self.mark(left)))),
        ]
    }
}

/// What is read back of a pair that is not written.
pub fn untouched(pair: &Pair) -> ReadBack {
    let other = if pair.blank { BLANK } else { VALID };
    ReadBack::promised(pair.winner, [VALID, other], &pair.record)
}
