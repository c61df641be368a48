//! Compares the numbers, plans and writes to come with what docs/FORMAT.md says of them.

use crate::counts::{Answer, Function};
use crate::faults::IMPOSSIBLE_LOG2S;
use crate::ffi_pair::PairIdentity;
use crate::ffi_plan::{self, Written};
use crate::frames::{
    nothing, packed, pair, random_row, row_read, Pair, Ranged, BLANK, FIRST, FORMS, FRAME, MOST_LENGTHS, OPERATORS,
    SOUND_A, SOUND_B, VALID,
};
use crate::judge_reference::{BAD_FRAMES, MOST_PAIRS};
use crate::lent::{Lent, LentCell};
use crate::outcome::{answer, filled, Call, Expected, Held};
use crate::part::{number, Checked, Fields, Part, Run};
use crate::plan_reference::{self as reference, Plan};
use crate::rng::Rng;
use crate::sample::{random_payload_len, HEADER, SMALLEST_LOG2};
use crate::value::Value;

const NEXT_NUMBER: &str = "sio_next_number";
const HEAL_NUMBER: &str = "sio_heal_number";
const PLAN_WRITE: &str = "sio_plan_write";
const PLAN_HEAL: &str = "sio_plan_heal";
const NEXT_WRITE: &str = "sio_next_write";

const SLOT_A: Answer = Answer::Decision("slot A");
const SLOT_B: Answer = Answer::Decision("slot B");
const FIRST_WRITE: Answer = Answer::Decision("first write");
const NONE: Answer = Answer::Decision("none");

const ALONE: Answer = Answer::Decision("of all pairs");
const SOME: Answer = Answer::Decision("of some pairs");
const NO_PAIR: Answer = Answer::Decision("of no pair");
const NO_OPERATOR: Answer = Answer::Decision("refusal 10, the operator");

/// By the operator's pairs in the row.
const NUMBERS: &[Answer] = &[ALONE, SOME, NO_PAIR, NO_OPERATOR];
const PLANS: &[Answer] = &[SLOT_A, SLOT_B, FIRST_WRITE, NONE];
const HEALS: &[Answer] = &[SLOT_A, SLOT_B, NONE];

const WRITE_NUMBERED: &str = "sio_plan_write: number";
const HEAL_NUMBERED: &str = "sio_plan_heal: number";
const ABOVE_ALL: Answer = Answer::Decision("above all other slots");
const NOT_ABOVE_ALL: Answer = Answer::Decision("not above all other slots");

/// The number of a write beside those of all operators.
pub const NUMBERS_WRITTEN: &[Answer] = &[ABOVE_ALL, NOT_ABOVE_ALL];

/// Of all five functions, and of the next write besides.
const REFUSALS: &[Answer] = &[Answer::Refusal(8), Answer::Refusal(45), Answer::Refusal(10), Answer::Refusal(48)];
const WRITES: &[Answer] = &[Answer::Refusal(1), Answer::Refusal(2), Answer::Refusal(3)];

pub const PART: Part = Part {
    functions: &[
        Function::new(NEXT_NUMBER, NUMBERS),
        Function::new(NEXT_NUMBER, REFUSALS),
        Function::new(HEAL_NUMBER, NUMBERS),
        Function::new(HEAL_NUMBER, REFUSALS),
        Function::new(PLAN_WRITE, PLANS),
        Function::new(PLAN_WRITE, REFUSALS),
        Function::new(PLAN_HEAL, HEALS),
        Function::new(PLAN_HEAL, REFUSALS),
        Function::new(NEXT_WRITE, PLANS),
        Function::new(NEXT_WRITE, REFUSALS),
        Function::new(NEXT_WRITE, WRITES),
        Function::part(WRITE_NUMBERED, NUMBERS_WRITTEN),
        Function::part(HEAL_NUMBERED, NUMBERS_WRITTEN),
    ],
    sweep,
    round,
};

/// What is asked of one row: an operator, a pair, a mark, and what is written.
struct Asked {
    frames: Vec<u8>,
    operator: u8,
    clean: u8,
    pair: usize,
    log2: u8,
    slot_len: usize,
    payload_len: usize,
}

impl Asked {
    /// Of the pair's operator and the smallest slots, with a small payload.
    fn new(row: &[Pair], clean: u8, pair: usize) -> Self {
        Self {
            frames: packed(row),
            operator: row.get(pair).map_or(0, |pair| pair.operator),
            clean,
            pair,
            log2: SMALLEST_LOG2,
            slot_len: 1 << SMALLEST_LOG2,
            payload_len: 8,
        }
    }
}

fn sweep(run: &mut Run) -> Checked {
    every_form(run)?;
    every_operator(run)?;
    two_statuses(run)?;
    most_lengths(run)
}

/// Every form of a pair, alone and beside others, as it is and with the last numbers and generations.
fn every_form(run: &mut Run) -> Checked {
    for form in all_forms() {
        for pair in spellings(form) {
            let other = pair.by_operator(1);
            for (row, at) in [
                (vec![pair], 0),
                (vec![FIRST, pair], 1),
                (vec![FIRST, other], 1),
                (vec![pair, SOUND_A], 0),
                (vec![pair, SOUND_A.by_operator(1)], 0),
                (vec![pair, pair], 1),
                (vec![pair, other], 1),
            ] {
                for clean in 0..=2 {
                    compare(run, &Asked::new(&row, clean, at))?;
                }
                compare(run, &Asked::new(&row, 0, row.len()))?;
            }
        }
    }
    Ok(())
}

/// With a pair that was never written.
fn all_forms() -> impl Iterator<Item = Pair> {
    FORMS.into_iter().chain([pair(nothing(BLANK), nothing(BLANK))])
}

/// Every operator and some that are none, asked for beside every form, and with every form.
fn every_operator(run: &mut Run) -> Checked {
    for operator in (0..=OPERATORS as u8 + 1).chain([u8::MAX]) {
        for form in all_forms() {
            let [own, other] = [operator, 2].map(|operator| form.by_operator(operator));
            for row in [vec![SOUND_B, own], vec![SOUND_B, other], vec![FIRST, SOUND_A.by_operator(1), other, own]] {
                for at in 0..row.len() {
                    compare(run, &Asked { operator, ..Asked::new(&row, 0, at) })?;
                }
            }
        }
    }
    Ok(())
}

/// A pair as it is, and with the last number or the last generation in either slot or in both.
fn spellings(pair: Pair) -> Vec<Pair> {
    let mut pairs = vec![pair];
    for ends in 1..16 {
        let mut last = pair;
        for (at, slot) in last.slots.iter_mut().enumerate() {
            if ends >> at & 1 == 1 {
                slot.number = u64::MAX;
            }
            if ends >> (at + 2) & 1 == 1 {
                slot.generation = u64::MAX;
            }
        }
        pairs.push(last);
    }
    pairs
}

/// Every status beside every other, with all facts.
fn two_statuses(run: &mut Run) -> Checked {
    for a in 0..=VALID {
        for b in 0..=VALID {
            for facts in 0..9 {
                let [mut first, mut second] = SOUND_A.slots;
                (first.code, first.facts) = (a, facts % 3);
                (second.code, second.facts) = (b, facts / 3);
                compare(run, &Asked::new(&[FIRST, pair(first, second)], 0, 1))?;
            }
        }
    }
    Ok(())
}

/// Every length of frames about that of the most pairs, with good and bad marks.
fn most_lengths(run: &mut Run) -> Checked {
    let row = vec![SOUND_A; MOST_PAIRS + 2];
    for frames_len in MOST_LENGTHS {
        for clean in [0, 2] {
            let mut asked = Asked::new(&row, clean, MOST_PAIRS - 1);
            asked.frames.truncate(frames_len);
            compare(run, &asked)?;
        }
    }
    Ok(())
}

fn round(run: &mut Run) -> Checked {
    let rng = &mut run.rng;
    let mut row = random_row(rng);
    if rng.one_in(8) {
        let pair = rng.below(row.len());
        row[pair] = rng.pick(&spellings(row[pair]));
    }
    let clean = u8::from(rng.one_in(3));
    let beyond = usize::from(rng.one_in(8));
    let pair = rng.below(row.len() + beyond);
    let mut asked = Asked::new(&row, clean, pair);
    if rng.one_in(4) {
        asked.operator = rng.below(OPERATORS) as u8;
    }
    asked.log2 += rng.below(2) as u8;
    asked.slot_len = 1 << asked.log2;
    asked.payload_len = random_payload_len(rng, asked.slot_len - HEADER);
    if rng.one_in(4) {
        spoil(rng, &mut asked);
    }
    compare(run, &asked)
}

fn spoil(rng: &mut Rng, asked: &mut Asked) {
    match rng.below(10) {
        0 => asked.frames.clear(),
        1 => asked.frames.extend(vec![0; 1 + rng.below(FRAME)]),
        2..=4 => rng.pick(&Ranged::ALL).spoil(rng, &mut asked.frames),
        5 => asked.operator = OPERATORS as u8 + rng.below(256 - OPERATORS) as u8,
        6 => asked.clean = 2 + rng.below(254) as u8,
        7 => asked.log2 = rng.pick(&IMPOSSIBLE_LOG2S),
        8 => asked.slot_len = rng.pick(&[0, asked.slot_len - 1, asked.slot_len + 1]),
        _ => asked.payload_len = asked.slot_len - HEADER + 1 + rng.below(9),
    }
}

fn compare(run: &mut Run, asked: &Asked) -> Checked {
    numbers(run, asked)?;
    plan_write(run, asked)?;
    plan_heal(run, asked)?;
    next_write(run, asked)
}

fn fields(asked: &Asked) -> Fields {
    vec![
        ("operator", number(asked.operator)),
        ("clean", number(asked.clean)),
        ("pair", number(asked.pair)),
        ("log2", number(asked.log2)),
    ]
}

fn numbers(run: &mut Run, asked: &Asked) -> Checked {
    let frames = Lent::holding(&mut run.rng, &asked.frames);
    let operator = asked.operator;
    for (function, call, expected) in [
        (NEXT_NUMBER, ffi_plan::next_number as fn(&_, _, &_) -> u32, reference::next_number(&asked.frames, operator)),
        (HEAL_NUMBER, ffi_plan::heal_number, reference::heal_number(&asked.frames, operator)),
    ] {
        let found = LentCell::random(&mut run.rng);
        let refusal = call(frames.cells(), operator, found.cell());
        let answer = number_answer(asked, &expected);
        Call { answer, ..Call::new(function, &expected, refusal) }.compare(
            run,
            &[("frames", &frames), ("number", &filled(&found, &expected, |number| *number))],
            || fields(asked),
        )?;
    }
    Ok(())
}

fn number_answer(asked: &Asked, expected: &Expected<u64>) -> Answer {
    if *expected == Err(BAD_FRAMES) && reference::next_number(&asked.frames, 0) != Err(BAD_FRAMES) {
        return NO_OPERATOR;
    }
    if expected.is_err() {
        return answer(expected);
    }
    let row = row_read(&asked.frames);
    match row.iter().filter(|pair| pair.operator == asked.operator).count() {
        0 => NO_PAIR,
        count if count < row.len() => SOME,
        _ => ALONE,
    }
}

/// Counts the number of a plan for a slot of a pair, 0 for A and 1 for B.
fn count_number(run: &mut Run, part: &'static str, asked: &Asked, (pair, plan): (usize, &Plan)) {
    let row = row_read(&asked.frames);
    let places = row.iter().enumerate().flat_map(|(at, pair)| [0, 1].map(|slot| ((at, slot), pair.slots[slot])));
    let mut others = places.filter(|(place, slot)| *place != (pair, plan.slot) && slot.is_numbered());
    let above_all = others.all(|(_, slot)| slot.number < plan.number);
    run.counts.add_part(part, number_written(above_all));
}

pub fn number_written(above_all: bool) -> Answer {
    if above_all {
        ABOVE_ALL
    } else {
        NOT_ABOVE_ALL
    }
}

/// A call whose answer is counted by what was planned.
fn planned<T>(function: &'static str, expected: &Expected<T>, found: u32, name: impl Fn(&T) -> Answer) -> Call {
    let kind = expected.as_ref().map_or_else(|_| answer(expected), name);
    Call { answer: kind, ..Call::new(function, expected, found) }
}

fn slot_answer(plan: &Plan) -> Answer {
    match (plan.slot, plan.generation, plan.previous) {
        (0, 1, 0) => FIRST_WRITE,
        (0, ..) => SLOT_A,
        _ => SLOT_B,
    }
}

fn plan_write(run: &mut Run, asked: &Asked) -> Checked {
    let frames = Lent::holding(&mut run.rng, &asked.frames);
    let plan = LentCell::random(&mut run.rng);
    let expected = reference::plan_write(&asked.frames, asked.pair);
    if let Ok(Some(plan)) = &expected {
        count_number(run, WRITE_NUMBERED, asked, (asked.pair, plan));
    }
    let refusal = ffi_plan::plan_write(frames.cells(), asked.pair, plan.cell());
    let name = |plan: &Option<Plan>| plan.as_ref().map_or(NONE, slot_answer);
    planned(PLAN_WRITE, &expected, refusal, name).compare(
        run,
        &[("frames", &frames), ("plan", &filled(&plan, &expected, reference::write_numbers))],
        || fields(asked),
    )
}

fn plan_heal(run: &mut Run, asked: &Asked) -> Checked {
    let frames = Lent::holding(&mut run.rng, &asked.frames);
    let plan = LentCell::random(&mut run.rng);
    let expected = reference::plan_heal(&asked.frames, asked.clean);
    if let Ok(Some((pair, plan))) = &expected {
        count_number(run, HEAL_NUMBERED, asked, (*pair, plan));
    }
    let refusal = ffi_plan::plan_heal(frames.cells(), asked.clean, plan.cell());
    let name =
        |heal: &Option<(usize, Plan)>| heal.map_or(NONE, |(_, plan)| if plan.slot == 0 { SLOT_A } else { SLOT_B });
    planned(PLAN_HEAL, &expected, refusal, name).compare(
        run,
        &[("frames", &frames), ("plan", &filled(&plan, &expected, reference::heal_numbers))],
        || fields(asked),
    )
}

fn next_write(run: &mut Run, asked: &Asked) -> Checked {
    let rng = &mut run.rng;
    let at = PairIdentity {
        volume0: rng.any(),
        volume1: rng.any(),
        object_id: rng.any(),
        offsets: [rng.any(), rng.any()],
        log2_slot_size: asked.log2,
        format_major: 2,
        numbered: 1,
    };
    let written = Written { owner_generation: rng.any(), compat_flags: u32::random(rng) };
    let frames = Lent::holding(rng, &asked.frames);
    let payload = Lent::random(rng, asked.payload_len);
    let mut slot = Lent::random(rng, asked.slot_len);
    let (plan, crc) = (LentCell::random(rng), LentCell::random(rng));
    let expected =
        reference::next_write((&asked.frames, asked.pair), &at, written, payload.expected(), slot.expected_mut());
    let refusal = ffi_plan::next_write(
        (frames.cells(), asked.pair),
        &at,
        written,
        payload.cells(),
        slot.cells(),
        plan.cell(),
        crc.cell(),
    );
    let name = |next: &Option<(Plan, u32)>| next.as_ref().map_or(NONE, |(plan, _)| slot_answer(plan));
    // Where nothing is planned the checksum is kept.
    let crc_after = expected.map(|next| next.map(|(_, crc)| crc)).transpose().and_then(Result::ok);
    let header_crc = Checksum { cell: &crc, value: crc_after };
    planned(NEXT_WRITE, &expected, refusal, name).compare(
        run,
        &[
            ("frames", &frames),
            ("payload", &payload),
            ("slot", &slot),
            ("plan", &filled(&plan, &expected, |next| next.map_or([0; 4], |(plan, _)| plan.numbers()))),
            ("header_crc32c", &header_crc),
        ],
        || fields(asked),
    )
}

/// The header's checksum, `None` where it is kept.
struct Checksum<'a> {
    cell: &'a LentCell<u32>,
    value: Option<u32>,
}

impl Held for Checksum<'_> {
    fn holds(&self) -> bool {
        self.cell.holds(self.value)
    }

    fn before_text(&self) -> String {
        self.cell.expected_text(None)
    }

    fn expected_text(&self) -> String {
        self.cell.expected_text(self.value)
    }

    fn found_text(&self) -> String {
        self.cell.found_text()
    }
}
