//! What is answered to a store after a cut: the verdicts on all pairs, and the record read back from the written one.

use crate::cut_records::{cells, Kind};
use crate::ffi_pair::PairIdentity;
use crate::frames::{part_of, BAD_HEADER, BAD_PAYLOAD, BLANK, VALID};
use crate::implementation::{Implementation, Judged, WinnerPayload};
use crate::judge_reference::VERDICT;
use crate::part::{number, Fields};
use crate::sample::OWNER;
use crate::value::{hex, Value};
use std::collections::BTreeSet;

/// What a slot's verdict says besides Winner.
pub const NOTHING: u8 = 1;
pub const OLDER_DAMAGED: u8 = 2;
pub const IN_FLIGHT: u8 = 3;

/// What a cut leaves in the written slot: by its bytes alone, and for another payload under the old header by its checksum.
#[derive(Clone, Copy, PartialEq)]
pub enum Left {
    /// The old header over the old payload, or a blank one.
    Old,
    /// The old header over another payload, which fails its checksum.
    OlderPayload,
    /// The old header over another payload, which passes its checksum.
    OlderPasses,
    TornHeader,
    /// A torn header that shows the checksum of the version before the winner: it passes for that one, damaged.
    OlderHeader,
    TornPayload,
    /// Header and payload are the new ones.
    New,
}

impl Left {
    /// The slot's status, and what its verdict says where it does not win; `blank` if its old header is.
    pub fn answered(self, blank: bool) -> (u8, u8) {
        match self {
            Self::Old => (if blank { BLANK } else { VALID }, NOTHING),
            Self::OlderPayload => (BAD_PAYLOAD, OLDER_DAMAGED),
            Self::TornHeader => (BAD_HEADER, IN_FLIGHT),
            Self::OlderHeader => (BAD_HEADER, OLDER_DAMAGED),
            Self::TornPayload => (BAD_PAYLOAD, IN_FLIGHT),
            Self::OlderPasses | Self::New => (VALID, NOTHING),
        }
    }
}

/// What is answered, but for the pairs that are not written.
#[derive(PartialEq)]
pub struct Answers {
    /// The written slot's.
    pub status: u32,
    pub judged: Judged,
    pub read: ReadBack,
}

/// A record read back: the slot that it lies in, the statuses and the decision, and what the pair's decoder answers.
#[derive(PartialEq)]
pub struct ReadBack {
    pub winner: u32,
    pub report: [u8; 7],
    pub record: Vec<u8>,
    pub decoded: u32,
}

/// Fills a slot's part of the frames anew, and answers its status.
pub fn fill_frame(
    tried: &dyn Implementation,
    frames: &mut [u8],
    (pair, slot): (usize, usize),
    at: &PairIdentity,
    stored: &[u8],
) -> u32 {
    let (status, part) = tried.frame_slot(stored, &at.slot(slot as u32), at.numbered);
    frames[part_of(pair, slot)].copy_from_slice(&part);
    status
}

/// A Confirmed pair, and what is said of the slot that is not the winner.
pub fn verdict(winner: usize, other: u8) -> [u8; VERDICT] {
    let mut verdict = [0, winner as u8 + 1, other, other];
    verdict[2 + winner] = 0;
    verdict
}

/// The judge's answer to a writable store of Confirmed pairs, one of whose slots may be named for healing.
pub fn confirmed(verdicts: Vec<u8>, healed: Option<(usize, usize)>, clean: bool, owners_differ: bool) -> Judged {
    let (pair, slot) = healed.map_or((0, 0), |(pair, slot)| (pair, slot + 1));
    Judged { refusal: 0, verdicts, judgement: [slot as u64, pair as u64, 1, clean.into(), 0, owners_differ.into()] }
}

/// Whether two of the winners, any two, have different owner generations.
pub fn owners_differ<'a>(winners: impl Iterator<Item = &'a Vec<u8>>) -> bool {
    winners.map(|slot| &slot[OWNER]).collect::<BTreeSet<_>>().len() > 1
}

impl Answers {
    pub fn fields(&self) -> Fields {
        let mut fields = vec![("slot's status", number(self.status))];
        fields.extend(self.judged.fields());
        fields.extend(self.read.fields());
        fields
    }
}

impl Judged {
    pub fn fields(&self) -> Fields {
        vec![
            ("refusal", number(self.refusal)),
            ("verdicts", hex(&self.verdicts)),
            ("judgement", hex(&self.judgement.packed())),
        ]
    }
}

impl ReadBack {
    /// The record of a Confirmed winner; no gap and no break, and the other slot is written next.
    pub fn promised(winner: usize, [a, b]: [u8; 2], record: &[u8]) -> Self {
        let winner = winner as u8 + 1;
        let other = 3 - winner;
        Self { winner: winner.into(), report: [a, b, 0, winner, 0, 0, other], record: record.to_vec(), decoded: 0 }
    }

    pub fn found(tried: &dyn Implementation, kind: Kind, at: &PairIdentity, slots: &[Vec<u8>; 2]) -> Self {
        let WinnerPayload { winner, start, payload_len, report } = tried.winner_payload(slots, at);
        let slot = slots.get((winner as usize).wrapping_sub(1));
        let record = slot.and_then(|slot| slot.get(start..start.checked_add(payload_len)?)).unwrap_or(&[]);
        Self { winner, report, record: record.to_vec(), decoded: kind.decode(&cells(record)) }
    }

    pub fn fields(&self) -> Fields {
        vec![
            ("slot read back", number(self.winner)),
            ("report", hex(&self.report)),
            ("record", hex(&self.record)),
            ("decoder", number(self.decoded)),
        ]
    }
}
