//! What is promised after each write of a history.

use crate::answers::{Answers, ReadBack};
use crate::cut_records::clean_mark;
use crate::history::History;
use crate::judge_reference::VERDICT;
use crate::part::Fields;

pub const CONFIRMED: &str = "every pair is Confirmed";
const WRITABLE: &str = "the store is writable";
pub const NAMED: &str = "no slot but the written one is named for healing";
const NONE_NAMED: &str = "after a finished write no slot is named";
pub const KNOWN: &str = "the record that was finished last is read back, or one begun after it";
pub const DECODED: &str = "the record read back decodes";
const MARK_READ: &str = "the mark read from pair 0 is that of the winner's record";
const MARK_WRITTEN: &str = "after a finished write of pair 0 the mark is that of its record";
pub const COUNTS: &str = "where no slot is named the mark counts as it is read";
const NOT_COUNTED: &str = "where a slot of pair 0 is named the mark does not count";
const PAGE_NAMED: &str = "a page is named only where the mark is not set";

/// What is answered after a write, and what a host reads from pair 0.
#[derive(PartialEq)]
pub struct AfterWrite {
    pub answers: Answers,
    pub volume: ReadBack,
}

impl AfterWrite {
    pub fn fields(&self) -> Fields {
        let mut fields = self.answers.fields();
        fields.push(("of pair 0", String::new()));
        fields.extend(self.volume.fields());
        fields
    }
}

impl History<'_> {
    /// The first promise that the answers after a write do not keep.
    pub fn broken(&self, found: &AfterWrite) -> Option<&'static str> {
        let (at, slot) = self.last;
        let pair = &self.pairs[at];
        let AfterWrite { answers: Answers { judged, read, .. }, volume } = found;
        let [heal, healed, writable, clean, ..] = judged.judgement;
        let confirmed = judged.refusal == 0 && judged.verdicts.chunks(VERDICT).all(|verdict| verdict[0] == 0);
        let wins = |pair, slot| judged.verdicts.get(VERDICT * pair + 1).map(|winner| u32::from(*winner)) == Some(slot);
        let marked = clean_mark(&volume.record);
        let kept = [
            (CONFIRMED, confirmed),
            (WRITABLE, writable == 1),
            (NAMED, heal == 0 || (heal, healed) == (slot as u64 + 1, at as u64)),
            (NONE_NAMED, heal == 0 || !self.is_finished()),
            (KNOWN, wins(at, read.winner) && pair.known.contains(&read.record)),
            (DECODED, read.decoded == 0),
            (MARK_READ, wins(0, volume.winner) && marked == self.mark()),
            (MARK_WRITTEN, at != 0 || !self.is_finished() || marked == clean_mark(&pair.known[0])),
            (COUNTS, heal != 0 || (clean == 1) == marked),
            (NOT_COUNTED, heal == 0 || healed != 0 || clean == 0),
            (PAGE_NAMED, heal == 0 || healed == 0 || !marked),
        ];
        kept.into_iter().find(|(_, kept)| !kept).map(|(promise, _)| promise)
    }
}
