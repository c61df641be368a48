//! A store while writes go to it one after the other, finished or cut: what a host is told to write, and what is answered
//! after each, beside what docs/FORMAT.md says and what is promised.

use crate::answers::{confirmed, fill_frame, owners_differ, verdict, Answers, Left, ReadBack};
use crate::cut_records::clean_mark;
use crate::cut_store::{self, flags_for};
use crate::ffi_plan::Written;
use crate::frames::unread;
use crate::history_pair::{Accident, Header, Pair, Whole, Write};
use crate::history_promises::AfterWrite;
use crate::implementation::{Implementation, Judged, Planned};
use crate::outcome::Expected;
use crate::part::{number, Fields};
use crate::plan_reference::{above, heal_numbers, write_numbers, Plan, USED_UP};
use crate::sample::HEADER;
use crate::tear::Tear;
use crate::value::hex;

pub struct History<'a> {
    tried: &'a dyn Implementation,
    pub pairs: Vec<Pair>,
    frames: Vec<u8>,
    /// The pair and the slot that were written last.
    pub last: (usize, usize),
    /// How many of the last writes healed.
    heals: usize,
    /// The pairs written so far, whether to heal, and how each write was cut.
    writes: Vec<(usize, bool, Option<Tear>)>,
}

/// What a write was, and what it left in its slot.
pub struct Step {
    /// How many writes in a row have healed with this one; 0 where it heals nothing.
    pub heals: usize,
    /// The clean mark before the write.
    pub marked: bool,
    /// The slot before the write.
    pub was: (Header, Left),
    pub untouched: bool,
    pub left: Left,
    /// What stands whole is an earlier write that was cut.
    pub earlier: bool,
    pub status: u32,
}

/// What is answered to every pair.
#[derive(PartialEq)]
pub struct Standing {
    frames: Vec<u8>,
    judged: Judged,
    read: Vec<ReadBack>,
}

impl Standing {
    pub fn fields(&self) -> Fields {
        let mut fields = vec![("frames", hex(&self.frames))];
        fields.extend(self.judged.fields());
        fields.extend(self.read.iter().flat_map(ReadBack::fields));
        fields
    }
}

impl<'a> History<'a> {
    pub fn new(tried: &'a dyn Implementation, store: Vec<cut_store::Pair>) -> Self {
        let pairs: Vec<Pair> = store.into_iter().map(Pair::new).collect();
        let mut history = Self { tried, frames: Vec::new(), pairs, last: (0, 0), heals: 0, writes: Vec::new() };
        history.frames = history.all_frames();
        history
    }

    fn all_frames(&self) -> Vec<u8> {
        let mut frames = unread(self.pairs.iter().map(|pair| pair.operator));
        for (at, pair) in self.pairs.iter().enumerate() {
            for (slot, stored) in pair.slots.iter().enumerate() {
                fill_frame(self.tried, &mut frames, (at, slot), &pair.at, stored);
            }
        }
        frames
    }

    /// The pair whose other slot is named for healing.
    pub fn named(&self) -> Option<usize> {
        self.pairs.iter().position(Pair::is_named)
    }

    /// The clean mark of pair 0's record.
    pub fn mark(&self) -> bool {
        clean_mark(&self.pairs[0].current.record)
    }

    /// The same as a host reads it, which hands it to the judge.
    pub fn mark_read(&self) -> bool {
        clean_mark(&self.read(0).record)
    }

    /// The only pair that may be written: where a slot is named its pair, and else pair 0 where the mark is set.
    pub fn only_pair(&self) -> Option<usize> {
        self.named().or(self.mark().then_some(0))
    }

    pub fn may_write(&self, pair: usize) -> bool {
        [None, Some(pair)].contains(&self.only_pair())
    }

    /// One above the highest of the numbered slots of a pair's operator.
    pub fn next_number(&self, pair: usize) -> Expected<u64> {
        above(self.of_operator(pair).flat_map(Pair::numbers))
    }

    /// One above the numbers of the winners of a pair's operator.
    pub fn heal_number(&self, pair: usize) -> Expected<u64> {
        above(self.of_operator(pair).map(|pair| pair.current.number()))
    }

    /// All pairs of a pair's operator.
    fn of_operator(&self, pair: usize) -> impl Iterator<Item = &Pair> {
        let operator = self.pairs[pair].operator;
        self.pairs.iter().filter(move |pair| pair.operator == operator)
    }

    fn plan(&self, pair: usize, number: Expected<u64>) -> Expected<Plan> {
        let Pair { current, .. } = &self.pairs[pair];
        let generation = current.generation().checked_add(1).ok_or(USED_UP)?;
        Ok(Plan { slot: self.pairs[pair].other(), generation, previous: current.own(), number: number? })
    }

    /// The correct write of a pair: where a slot is named, that of its pair heals.
    pub fn next(&self, pair: usize) -> Expected<Plan> {
        let heals = self.named() == Some(pair);
        self.plan(pair, if heals { self.heal_number(pair) } else { self.next_number(pair) })
    }

    /// What a host is told that asks for a pair.
    pub fn planned(&self, pair: usize) -> Planned {
        let heal = self.named().map(|named| Ok((named, self.plan(named, self.heal_number(named))?))).transpose();
        Planned {
            next_number: self.next_number(pair),
            heal_number: self.heal_number(pair),
            write: self.plan(pair, self.next_number(pair)).map(|plan| write_numbers(&Some(plan))),
            heal: heal.map(|heal| heal_numbers(&heal)),
        }
    }

    pub fn planned_found(&self, pair: usize) -> Planned {
        self.tried.planned(&self.frames, self.mark_read(), pair, self.pairs[pair].operator)
    }

    /// A write by a plan that is finished.
    pub fn planned_write(&self, pair: usize, plan: &Plan, written: Written, record: &[u8]) -> Write {
        let at = self.pairs[pair].at.slot(plan.slot as u32);
        let (bytes, _) = self.tried.encode(&at, &plan.version(written), record);
        Write { pair, bytes, same_checksum: false, tear: None }
    }

    /// The same with other compatible flags, so that of its own checksum the lowest `bits` are those of `wanted`.
    pub fn with_checksum(
        &self,
        pair: usize,
        plan: &Plan,
        written: Written,
        record: &[u8],
        (wanted, bits): (u32, u32),
    ) -> Write {
        let at = self.pairs[pair].at.slot(plan.slot as u32);
        let bits = bits.min(self.tried.checksum_bits());
        let compat_flags = flags_for(self.tried, &at, &plan.version(written), record, (wanted, bits));
        self.planned_write(pair, plan, Written { compat_flags, ..written }, record)
    }

    /// A write that is cut after the first byte of its checksum, which is that of `whole`: where the slot shows the rest of
    /// that one's header it stands again.
    pub fn showing_again(&self, pair: usize, plan: &Plan, written: Written, record: &[u8], whole: &Whole) -> Write {
        let write = self.with_checksum(pair, plan, written, record, (whole.own(), u8::BITS));
        Write { tear: Some(Tear::IN_CHECKSUM), ..write }
    }

    /// Writes a slot, and answers what that leaves; after an accident that is returned nothing is promised.
    pub fn write(&mut self, write: &Write) -> Result<Step, Accident> {
        let heals = self.named() == Some(write.pair);
        let marked = self.mark();
        self.writes.push((write.pair, heals, write.tear));
        self.heals = if heals { self.heals + 1 } else { 0 };
        let pair = &mut self.pairs[write.pair];
        let (slot, was) = (pair.other(), (pair.header, pair.left));
        self.last = (write.pair, slot);
        let before = pair.slots[slot].clone();
        let left = pair.write(self.tried, write)?;
        let after = &pair.slots[slot];
        let untouched = *after == before;
        let earlier = left == Left::New && after[..HEADER] != write.bytes[..HEADER];
        let status = fill_frame(self.tried, &mut self.frames, (write.pair, slot), &pair.at, after);
        Ok(Step { heals: self.heals, marked, was, untouched, left, earlier, status })
    }

    /// By chance the write, which is cut, has the checksum that the winner has as its previous one: it was not made so, nor
    /// was an earlier one with the same header.
    pub fn has_same_checksum(&self, write: &Write) -> bool {
        let Pair { current, begun, .. } = &self.pairs[write.pair];
        let whole = Whole::of(&write.bytes);
        let made = write.same_checksum || begun.iter().any(|begun| begun.header == whole.header);
        write.tear.is_some() && whole.own() == current.previous() && !made
    }

    /// What the judge answers by the bytes in all slots: the mark does not count beside a slot of pair 0 in flight.
    fn judged(&self) -> Judged {
        let healed = self.named().map(|named| (named, self.pairs[named].other()));
        let verdicts = self.pairs.iter().flat_map(|pair| verdict(pair.winner, pair.answered().1)).collect();
        let clean = self.mark() && self.named() != Some(0);
        confirmed(verdicts, healed, clean, owners_differ(self.pairs.iter().map(|pair| &pair.slots[pair.winner])))
    }

    /// What the bytes in all slots say after a step, with what is read back of the written pair and of pair 0.
    pub fn expected(&self, step: &Step) -> AfterWrite {
        let pair = &self.pairs[self.last.0];
        let status = step.left.answered(pair.header == Header::Blank).0.into();
        let answers = Answers { status, judged: self.judged(), read: pair.promised() };
        AfterWrite { answers, volume: self.pairs[0].promised() }
    }

    /// What a host is answered that hands over this mark.
    pub fn found(&self, step: &Step, mark: bool) -> AfterWrite {
        let judged = self.tried.judge(&self.frames, mark);
        let answers = Answers { status: step.status, judged, read: self.read(self.last.0) };
        AfterWrite { answers, volume: self.read(0) }
    }

    /// The last write was finished.
    pub fn is_finished(&self) -> bool {
        matches!(self.writes.last(), Some((_, _, None)))
    }

    fn read(&self, pair: usize) -> ReadBack {
        let pair = &self.pairs[pair];
        ReadBack::found(self.tried, pair.kind, &pair.at, &pair.slots)
    }

    /// What was answered to all pairs when each was written last, and is to the store.
    pub fn standing(&self) -> Standing {
        let read = self.pairs.iter().map(Pair::promised).collect();
        Standing { frames: self.frames.clone(), judged: self.judged(), read }
    }

    /// What is answered to them now.
    pub fn standing_found(&self) -> Standing {
        let frames = self.all_frames();
        let judged = self.tried.judge(&frames, self.mark_read());
        Standing { frames, judged, read: (0..self.pairs.len()).map(|pair| self.read(pair)).collect() }
    }

    /// The store with its writes, and the pair that was written last.
    pub fn fields(&self) -> Fields {
        let (at, slot) = self.last;
        let pair = &self.pairs[at];
        let writes: Vec<String> = self.writes.iter().map(write_text).collect();
        let mut fields = vec![
            ("pairs", number(self.pairs.len())),
            ("writes", writes.join(", ")),
            ("written pair", number(at)),
            ("written slot", number(slot + 1)),
            ("operator", number(pair.operator)),
            ("volume0", number(pair.at.volume0)),
            ("volume1", number(pair.at.volume1)),
            ("object_id", number(pair.at.object_id)),
            ("slot_offset", number(pair.at.offsets[slot])),
            ("log2_slot_size", number(pair.at.log2_slot_size)),
            ("slot A", hex(&pair.slots[0])),
            ("slot B", hex(&pair.slots[1])),
            ("frames", hex(&self.frames)),
            ("clean", number(u8::from(self.mark()))),
        ];
        fields.extend(pair.known.iter().map(|record| ("known record", hex(record))));
        fields
    }
}

fn write_text((pair, heals, tear): &(usize, bool, Option<Tear>)) -> String {
    let kind = if *heals { "heal of" } else { "write to" };
    let cut = tear.map_or_else(|| "finished".to_string(), |tear| format!("cut, {tear}"));
    format!("{kind} pair {pair} {cut}")
}
