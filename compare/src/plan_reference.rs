//! What a correct write is, from docs/FORMAT.md ("Frames", "Pairs", "Numbered slots", "What a correct write is"). Which slot is healed and
//! which slots won, the judge's reference says.

use crate::ffi::Version;
use crate::ffi_pair::PairIdentity;
use crate::ffi_plan::Written;
use crate::frames::{row_read, Pair, Slot, BLANK, FRAME, INCOMPATIBLE, OPERATORS, UNSUPPORTED, VALID};
use crate::judge_reference::{self, BAD_FRAMES, MOST_PAIRS, NO_PAIR, TOO_MANY_PAIRS, VERDICT};
use crate::judge_restated::numbered;
use crate::slot_reference;

/// No generation or no number is left.
pub const USED_UP: u32 = 48;

/// A planned write. The slot is 0 for A and 1 for B.
#[derive(Clone, Copy)]
pub struct Plan {
    pub slot: usize,
    pub generation: u64,
    pub previous: u32,
    pub number: u64,
}

impl Plan {
    pub fn version(&self, written: Written) -> Version {
        Version {
            generation: self.generation,
            owner_generation: written.owner_generation,
            prev_header_crc32c: self.previous,
            meta_seq: self.number,
            compat_flags: written.compat_flags,
        }
    }

    /// As C has it: the slot is 1 for A and 2 for B.
    pub fn numbers(&self) -> [u64; 4] {
        [self.slot as u64 + 1, self.generation, self.previous.into(), self.number]
    }
}

/// As C has it: zeros where there is no plan.
pub fn write_numbers(plan: &Option<Plan>) -> [u64; 4] {
    plan.map_or([0; 4], |plan| plan.numbers())
}

/// The same, after the pair.
pub fn heal_numbers(heal: &Option<(usize, Plan)>) -> [u64; 5] {
    heal.map_or([0; 5], |(pair, plan)| {
        let [slot, generation, previous, number] = plan.numbers();
        [pair as u64, slot, generation, previous, number]
    })
}

/// All pairs, or the number of a refusal.
fn read(frames: &[u8], clean: u8) -> Result<Vec<Pair>, u32> {
    if frames.is_empty() {
        return Err(NO_PAIR);
    }
    if frames.len() > MOST_PAIRS * FRAME {
        return Err(TOO_MANY_PAIRS);
    }
    if frames.len() % FRAME != 0 {
        return Err(BAD_FRAMES);
    }
    let row = row_read(frames);
    if clean > 1 || row.iter().enumerate().any(|(at, pair)| !pair.is_in_range(at)) {
        return Err(BAD_FRAMES);
    }
    Ok(row)
}

/// The same of a call that names an operator.
fn read_for(frames: &[u8], operator: u8) -> Result<Vec<Pair>, u32> {
    let row = read(frames, 0)?;
    if usize::from(operator) >= OPERATORS {
        return Err(BAD_FRAMES);
    }
    Ok(row)
}

/// One above the highest, 1 where there is none.
pub fn above(numbers: impl Iterator<Item = u64>) -> Result<u64, u32> {
    numbers.max().unwrap_or(0).checked_add(1).ok_or(USED_UP)
}

pub fn next_number(frames: &[u8], operator: u8) -> Result<u64, u32> {
    let row = read_for(frames, operator)?;
    above(numbered(&row, operator).map(|(_, _, number)| number))
}

pub fn heal_number(frames: &[u8], operator: u8) -> Result<u64, u32> {
    let row = read_for(frames, operator)?;
    let judged = judge_reference::judge(frames, 0, row.len() * VERDICT)?;
    let own = row.iter().zip(judged.verdicts.chunks(VERDICT)).filter(|(pair, _)| pair.operator == operator);
    let winners = own.filter(|(_, verdict)| verdict[1] != 0);
    above(winners.map(|(pair, verdict)| pair.slots[usize::from(verdict[1]) - 1].number))
}

/// The slot that is written next, and the slot that the write follows; an Empty pair's first write follows none.
fn next(pair: &Pair) -> Option<(usize, Option<Slot>)> {
    let [a, b] = &pair.slots;
    let refused = |slot: &Slot| slot.code == UNSUPPORTED || slot.code == INCOMPATIBLE;
    if refused(a) || refused(b) {
        return None;
    }
    match (a.code, b.code) {
        (VALID, VALID) if a.generation == b.generation => None,
        (VALID, VALID) if a.generation < b.generation => Some((0, Some(*b))),
        (VALID, _) => Some((1, Some(*a))),
        (_, VALID) => Some((0, Some(*b))),
        (BLANK, BLANK) => Some((0, None)),
        _ => None,
    }
}

fn plan((slot, follows): (usize, Option<Slot>), number: Result<u64, u32>) -> Result<Plan, u32> {
    let (before, previous) = follows.map_or((0, 0), |winner| (winner.generation, winner.own));
    Ok(Plan { slot, generation: before.checked_add(1).ok_or(USED_UP)?, previous, number: number? })
}

pub fn plan_write(frames: &[u8], pair: usize) -> Result<Option<Plan>, u32> {
    let row = read(frames, 0)?;
    let pair = row.get(pair).ok_or(NO_PAIR)?;
    next(pair).map(|next| plan(next, next_number(frames, pair.operator))).transpose()
}

/// The pair, and the plan of its heal.
pub fn plan_heal(frames: &[u8], clean: u8) -> Result<Option<(usize, Plan)>, u32> {
    let row = read(frames, clean)?;
    let [slot, pair, ..] = judge_reference::judge(frames, clean, row.len() * VERDICT)?.judgement;
    if slot == 0 {
        return Ok(None);
    }
    let (slot, pair) = (slot as usize - 1, pair as usize);
    let Pair { slots, operator } = &row[pair];
    let others = numbered(&row, *operator).filter(|(at, side, _)| (*at, *side) != (pair, slot));
    let number = above(others.map(|(_, _, number)| number));
    plan((slot, Some(slots[1 - slot])), number).map(|plan| Some((pair, plan)))
}

/// The plan, and the checksum of the header; the bytes are in the buffer.
pub fn next_write(
    (frames, pair): (&[u8], usize),
    at: &PairIdentity,
    written: Written,
    payload: &[u8],
    slot: &mut [u8],
) -> Result<Option<(Plan, u32)>, u32> {
    let Some(plan) = plan_write(frames, pair)? else { return Ok(None) };
    let version = plan.version(written);
    let at = PairIdentity { format_major: 2, numbered: 1, ..*at };
    let encoded = slot_reference::encode(slot, &at.slot(plan.slot as u32), &version, payload);
    encoded.header_crc32c.map(|crc| Some((plan, crc))).ok_or(encoded.refusal)
}
