//! A store while it is created: zeros where a store was, then the first write of each pair, that of pair 0 last. What it
//! holds, and what a host is told to write, beside what docs/FORMAT.md says ("The creation of a store").

use crate::answers::fill_frame;
use crate::creation_slots::Held;
use crate::cut_store::{fitting_entries, random_write, Pair, Write};
use crate::frames::unread;
use crate::history_pair::Whole;
use crate::history_writes::new_written;
use crate::implementation::{Implementation, Planned};
use crate::outcome::Expected;
use crate::plan_reference::{above, heal_numbers, write_numbers, Plan};
use crate::rng::Rng;
use crate::sample::HEADER;
use crate::tear::{Medium, Tear};

/// The slots of a pair.
pub const SLOTS: usize = 2;

/// The slots that are zeroed: those of pair 0, and then those of the pages, each in any order.
pub fn slots_zeroed(rng: &mut Rng, pairs: usize) -> Vec<(usize, usize)> {
    let mut slots: Vec<(usize, usize)> = (0..pairs).flat_map(|at| [(at, 0), (at, 1)]).collect();
    rng.shuffle(&mut slots[..SLOTS]);
    rng.shuffle(&mut slots[SLOTS..]);
    slots
}

/// The pairs that are written first: the pages, in any order, and then pair 0.
pub fn pairs_written(rng: &mut Rng, pairs: usize) -> Vec<usize> {
    let mut written: Vec<usize> = (1..pairs).collect();
    rng.shuffle(&mut written);
    written.push(0);
    written
}

pub struct Creation<'a> {
    pub tried: &'a dyn Implementation,
    pub pairs: Vec<Pair>,
    /// What was written to each slot since it was zeros, and what it holds.
    written: Vec<[Vec<Whole>; SLOTS]>,
    pub held: Vec<[Held; SLOTS]>,
    pub frames: Vec<u8>,
    /// The slot that wins in each pair of the older store; none where pair 0 has no record any more.
    pub older: Vec<usize>,
}

impl<'a> Creation<'a> {
    /// In the place of an older store.
    pub fn over(tried: &'a dyn Implementation, pairs: Vec<Pair>) -> Self {
        let written = pairs.iter().map(|pair| pair.slots.each_ref().map(|slot| vec![Whole::of(slot)])).collect();
        let held = pairs.iter().map(|_| [Held::Blank, Held::Blank]).collect();
        let frames = unread(pairs.iter().map(|pair| pair.operator));
        let mut creation = Self { tried, pairs, written, held, frames, older: Vec::new() };
        for at in 0..creation.pairs.len() {
            (0..SLOTS).for_each(|slot| creation.hold(at, slot));
        }
        creation.older = creation.winners();
        creation
    }

    /// In slots that are Blank, with what they held behind their headers.
    pub fn in_blank_slots(tried: &'a dyn Implementation, mut pairs: Vec<Pair>) -> Self {
        pairs.iter_mut().flat_map(|pair| &mut pair.slots).for_each(|slot| slot[..HEADER].fill(0));
        Self::over(tried, pairs)
    }

    /// In the place of an older store of which a write was cut, without an accident.
    pub fn over_cut(rng: &mut Rng, tried: &'a dyn Implementation, mut pairs: Vec<Pair>) -> Self {
        let write = random_write(rng, tried, Medium::Sectors, &mut pairs);
        let tear = Tear::random(rng, write.new.len(), HEADER + write.record.len());
        let mut creation = Self::over(tried, pairs);
        let before = creation.pairs[write.pair].slots[write.slot].clone();
        creation.write(&write, Some(tear));
        if creation.is_accident(write.pair, write.slot) {
            creation.put(write.pair, write.slot, before);
        }
        creation.older = creation.winners();
        creation
    }

    fn put(&mut self, at: usize, slot: usize, stored: Vec<u8>) {
        self.pairs[at].slots[slot] = stored;
        self.hold(at, slot);
        if self.winner(0).is_none() {
            self.older.clear();
        }
    }

    /// Reads a slot anew.
    fn hold(&mut self, at: usize, slot: usize) {
        let pair = &self.pairs[at];
        let stored = &pair.slots[slot];
        self.held[at][slot] = Held::of(self.tried, stored, &self.written[at][slot]);
        fill_frame(self.tried, &mut self.frames, (at, slot), &pair.at, stored);
    }

    pub fn is_accident(&self, at: usize, slot: usize) -> bool {
        matches!(self.held[at][slot], Held::Accident)
    }

    /// The slot that wins in a pair.
    pub fn winner(&self, at: usize) -> Option<usize> {
        let slots = self.held[at].iter().enumerate();
        slots.filter_map(|(slot, held)| Some((held.whole()?.generation(), slot))).max().map(|(_, slot)| slot)
    }

    /// The slots that win, up to the first pair without a record.
    fn winners(&self) -> Vec<usize> {
        (0..self.pairs.len()).map_while(|at| self.winner(at)).collect()
    }

    /// Every pair has a record.
    pub fn is_whole(&self) -> bool {
        self.winners().len() == self.pairs.len()
    }

    /// Writes zeros to a slot, or a part of them.
    pub fn zero(&mut self, at: usize, slot: usize, tear: Option<Tear>) {
        let before = &self.pairs[at].slots[slot];
        let zeros = vec![0; before.len()];
        let stored = tear.map_or_else(|| zeros.clone(), |tear| tear.left(&zeros, before));
        if stored == zeros {
            self.written[at][slot].clear();
        }
        self.put(at, slot, stored);
    }

    /// Writes all of a slot, or a part of it. Where that is the record, the pair has it.
    pub fn write(&mut self, write: &Write, tear: Option<Tear>) {
        let Write { pair: at, slot, new, .. } = write;
        let stored = tear.map_or_else(|| new.clone(), |tear| tear.left(new, &self.pairs[*at].slots[*slot]));
        self.written[*at][*slot].push(Whole::of(new));
        self.put(*at, *slot, stored);
        let [_, b] = &self.held[*at];
        let Held::Whole(whole) = &self.held[*at][*slot] else { return };
        let pair = &mut self.pairs[*at];
        if pair.slots[*slot][..HEADER] == new[..HEADER] {
            pair.winner = *slot;
            pair.blank = matches!(b, Held::Blank);
            pair.generation = whole.generation();
            pair.number = whole.number();
            pair.own = whole.own();
            pair.previous = whole.previous();
            pair.record = whole.record.clone();
        }
    }

    /// Each pair's records. Where a first write is planned each slot is blank or has one.
    fn records(&self) -> impl Iterator<Item = (&Pair, &Whole)> {
        let pairs = self.pairs.iter().zip(&self.held);
        pairs.flat_map(|(pair, held)| held.iter().filter_map(move |held| Some((pair, held.whole()?))))
    }

    /// One above the numbers of the pairs of a pair's operator.
    fn next_number(&self, at: usize) -> Expected<u64> {
        let own = self.records().filter(|(pair, _)| pair.operator == self.pairs[at].operator);
        above(own.map(|(_, whole)| whole.number()))
    }

    fn plan(&self, at: usize) -> Expected<Plan> {
        Ok(Plan { slot: 0, generation: 1, previous: 0, number: self.next_number(at)? })
    }

    /// What a host is told that asks for a pair without a record, under either mark.
    pub fn planned(&self, at: usize) -> Planned {
        Planned {
            next_number: self.next_number(at),
            heal_number: self.next_number(at),
            write: self.plan(at).map(|plan| write_numbers(&Some(plan))),
            heal: Ok(heal_numbers(&None)),
        }
    }

    pub fn planned_found(&self, at: usize, mark: bool) -> Planned {
        self.tried.planned(&self.frames, mark, at, self.pairs[at].operator)
    }

    /// A first write by its plan, of any record that is accepted.
    pub fn first_write(&self, rng: &mut Rng, at: usize) -> Write {
        let pair = &self.pairs[at];
        let plan = self.plan(at).expect("a creation has few writes");
        let mark = rng.one_in(2);
        let record = pair.kind.record(rng, fitting_entries(pair.slots[0].len()), Some(&pair.record), mark);
        let (new, _) = self.tried.encode(&pair.at.slot(plan.slot as u32), &plan.version(new_written(rng)), &record);
        let above_all = self.records().all(|(_, whole)| whole.number() < plan.number);
        let mark = mark && at == 0;
        Write { pair: at, slot: plan.slot, record, marked: false, mark, same_checksum: false, above_all, new }
    }
}
