//! What is answered to a store that is being created, beside what docs/FORMAT.md says of what its slots hold ("The store
//! verdict") and what is promised.

use crate::answers::ReadBack;
use crate::creation::{Creation, SLOTS};
use crate::creation_slots::Held;
use crate::cut_store::Pair;
use crate::frames::{self, packed, BAD_HEADER, BAD_PAYLOAD, BLANK, VALID};
use crate::implementation::Judged;
use crate::judge_reference::{self, VERDICT};
use crate::part::{number, Fields};
use crate::value::hex;

// What is promised under either mark: of an older store while its pair 0 has a record,
pub const OLDER_READ: &str = "each page of the older store is read as it was";
// and of the new one until every pair has a record.
pub const NOT_WRITABLE: &str = "a store of which a pair has no record is not writable";
const NONE_NAMED: &str = "no slot of it is named for healing";

/// What is answered to the store.
#[derive(PartialEq)]
pub struct Answered {
    frames: Vec<u8>,
    /// Under each mark.
    pub judged: [Judged; 2],
    /// Each pair's record, where pair 0 has one.
    read: Vec<ReadBack>,
}

impl Answered {
    pub fn fields(&self) -> Fields {
        let mut fields = vec![("frames", hex(&self.frames))];
        fields.extend(self.judged.iter().flat_map(Judged::fields));
        fields.extend(self.read.iter().flat_map(ReadBack::fields));
        fields
    }
}

impl Creation<'_> {
    /// The frames by what the slots hold; of an accident nothing is said.
    fn row(&self) -> Option<Vec<frames::Pair>> {
        let pairs = self.pairs.iter().zip(&self.held);
        let frame = |(pair, [a, b]): (&Pair, &[Held; SLOTS])| {
            Some(frames::Pair { slots: [a.part()?, b.part()?], operator: pair.operator })
        };
        pairs.map(frame).collect()
    }

    /// The same, and what is answered to them.
    pub fn expected(&self) -> Option<Answered> {
        let row = self.row()?;
        let frames = packed(&row);
        let judged = [false, true].map(|mark| judged(&frames, mark));
        let read = self.with_record().map(|at| self.read_by(&row[at], at)).collect::<Option<_>>()?;
        Some(Answered { frames, judged, read })
    }

    pub fn found(&self) -> Answered {
        let read = self.with_record().map(|at| {
            let pair = &self.pairs[at];
            ReadBack::found(self.tried, pair.kind, &pair.at, &pair.slots)
        });
        Answered { frames: self.frames.clone(), judged: self.judged_found(), read: read.collect() }
    }

    pub fn judged_found(&self) -> [Judged; 2] {
        [false, true].map(|mark| self.tried.judge(&self.frames, mark))
    }

    /// All pairs where pair 0 has a record, else none.
    fn with_record(&self) -> impl Iterator<Item = usize> {
        0..if self.winner(0).is_some() { self.pairs.len() } else { 0 }
    }

    /// The winner's record. `decide` trusts it beside a slot that an ordinary history leaves.
    fn read_by(&self, frame: &frames::Pair, at: usize) -> Option<ReadBack> {
        let winner = self.winner(at)?;
        let codes = frame.slots.map(|slot| slot.code);
        let mut read = ReadBack::promised(winner, codes, &self.held[at][winner].whole()?.record);
        let ordinary = [BLANK, BAD_HEADER, BAD_PAYLOAD, VALID].contains(&codes[1 - winner]);
        read.report[2] = u8::from(!ordinary);
        Some(read)
    }

    /// A page is in flight.
    pub fn has_torn_page(&self) -> bool {
        let [slot, pair, ..] = self.row().map_or([0; 6], |row| judged(&packed(&row), false).judgement);
        slot != 0 && pair != 0
    }

    /// The first promise that these answers do not keep.
    pub fn broken(&self, found: &[Judged; 2]) -> Option<&'static str> {
        self.promises(found).into_iter().find(|(_, kept)| !kept).map(|(promise, _)| promise)
    }

    /// Whether these answers do not keep this promise.
    pub fn breaks(&self, found: &[Judged; 2], promise: &str) -> bool {
        self.promises(found).contains(&(promise, false))
    }

    /// Each promise, and whether these answers keep it.
    fn promises(&self, found: &[Judged; 2]) -> [(&'static str, bool); 3] {
        let none = |value: usize| found.iter().all(|judged| judged.refusal == 0 && judged.judgement[value] == 0);
        let older = self.older.iter().enumerate().skip(1);
        let wins = |judged: &Judged, at: usize, slot: usize| {
            judged.verdicts.get(VERDICT * at + 1).is_some_and(|winner| usize::from(*winner) == slot + 1)
        };
        let read = found.iter().all(|judged| older.clone().all(|(at, slot)| wins(judged, at, *slot)));
        [(OLDER_READ, read), (NOT_WRITABLE, self.is_whole() || none(2)), (NONE_NAMED, self.is_whole() || none(0))]
    }

    /// The store, and the pair that something was done to last.
    pub fn fields(&self, at: usize) -> Fields {
        let pair = &self.pairs[at];
        vec![
            ("pairs", number(self.pairs.len())),
            ("pair", number(at)),
            ("operator", number(pair.operator)),
            ("volume0", number(pair.at.volume0)),
            ("volume1", number(pair.at.volume1)),
            ("object_id", number(pair.at.object_id)),
            ("slot_offset", number(pair.at.offsets[0])),
            ("log2_slot_size", number(pair.at.log2_slot_size)),
            ("slot A", hex(&pair.slots[0])),
            ("slot B", hex(&pair.slots[1])),
            ("frames", hex(&self.frames)),
        ]
    }
}

/// By the rule.
fn judged(frames: &[u8], mark: bool) -> Judged {
    match judge_reference::judge(frames, mark.into(), frames.len() / frames::FRAME * VERDICT) {
        Ok(judge_reference::Judged { verdicts, judgement }) => Judged { refusal: 0, verdicts, judgement },
        Err(refusal) => panic!("the judge by the rule refuses with {refusal}"),
    }
}
