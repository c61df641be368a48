//! The fixed list of numbers, plans and next writes. The answers are those of plan_reference.rs.
//!
//! | NAME | INPUT | EXPECTED |
//! |---|---|---|
//! | num | operator (1), FRAMES | refusal (1), where not refused the operator's next number (8) |
//! | win | operator (1), FRAMES | refusal (1), where not refused the number above its winners (8) |
//! | pln | pair (8), FRAMES | refusal (1), where not refused PLAN |
//! | hea | clean mark (1), FRAMES | refusal (1), where not refused the pair (8) and PLAN |
//! | wrt | pair (8), FIELDS, BUFFER, PAYLOAD, FRAMES | refusal (1), where not refused PLAN, header checksum (4), buffer |
//!
//! The widths in bytes are in brackets.
//!
//! - FRAMES: how often the first frame stands (2), that frame, and the others, to the end of the field.
//! - PLAN: slot, generation, previous checksum, number (8 each); zeros where nothing is planned.
//! - FIELDS: volume0 (8), volume1 (8), object_id (8), a_offset (8), b_offset (8), log2_slot_size (1), owner_generation (8),
//!   compat_flags (4).
//! - BUFFER: a length (2) and a byte (1); the buffer holds this byte everywhere before the call. At a refusal and where
//!   nothing is planned it is as it was, and all bits of the checksum are set.
//! - PAYLOAD: a length (2) and so many bytes.

use crate::ffi_pair::PairIdentity;
use crate::ffi_plan::Written;
use crate::frames::{
    bad_header, bad_payload, nothing, packed, pair, valid, Pair, Slot, BAD_MAGIC, BAD_PAYLOAD, BLANK, FRAME, HALF,
    INCOMPATIBLE, MALFORMED, UNSUPPORTED,
};
use crate::judge_reference::MOST_PAIRS;
use crate::list::{with_len, List};
use crate::plan_reference::{self as reference, heal_numbers, write_numbers};
use crate::value::Value;

const FILL: u8 = 0xa5;

/// The own checksum of a record, another one for each of the lower generations.
const fn checksum(generation: u64) -> u32 {
    0x1111_1111u32.wrapping_mul(generation as u32)
}

const fn written(generation: u64, number: u64) -> Slot {
    let previous = checksum(generation - 1);
    Slot { own: checksum(generation), previous, ..valid(generation, number) }
}

const fn torn(generation: u64, number: u64) -> Slot {
    bad_payload(generation, number, checksum(generation - 1))
}

const HEADER: Slot = bad_header(0x7777_7777);
const NONE: Slot = nothing(BLANK);
const UNREAD: Slot = nothing(0);

/// A slot of this status that has every other value of a torn payload, with a number above those of the pairs below.
const fn of_status(code: u8) -> Slot {
    Slot { code, ..bad_payload(9, 99, 0x8888_8888) }
}

const EMPTY: Pair = pair(NONE, NONE);
const VOLUME: Pair = pair(written(1, 1), NONE);
const PAGE: Pair = pair(written(2, 4), written(1, 3));
const PAGE_B: Pair = pair(written(2, 3), written(3, 6));
const FORK: Pair = pair(written(2, 6), Slot { own: 0x9999_9999, ..written(2, 7) });
const LOST: Pair = pair(UNREAD, NONE);
const LOST_NUMBER: Pair = pair(torn(2, 7), nothing(BAD_MAGIC));
const REFUSED: Pair = pair(nothing(UNSUPPORTED), written(2, 7));
const REFUSED_B: Pair = pair(written(2, 7), nothing(INCOMPATIBLE));
const UNCONFIRMED: Pair = pair(nothing(MALFORMED), written(2, 7));

/// In flight: a header, with no number, or a payload with the next one.
const CUT: Pair = pair(HEADER, written(3, 5));
const CUT_B: Pair = pair(written(3, 5), HEADER);
const TORN: Pair = pair(torn(4, 6), written(3, 5));
const TORN_B: Pair = pair(written(3, 5), torn(4, 6));
/// A payload whose number is not the next one.
const LATE: Pair = pair(written(2, 4), torn(3, 9));

const LAST: u64 = u64::MAX;
const LAST_32: u64 = u32::MAX as u64;

/// Numbers that are used up.
const ENDED: Pair = pair(written(3, LAST), NONE);

/// A pair, and the row.
const PLANS: &[(usize, &[Pair])] = &[
    // Empty
    (0, &[EMPTY]),
    (1, &[PAGE, EMPTY]),
    (1, &[PAGE, EMPTY.by_operator(3)]),
    // Confirmed: both Valid, and one Valid beside 2, 4 and 11
    (0, &[PAGE]),
    (0, &[PAGE_B]),
    (0, &[pair(written(3, 5), written(2, 6))]),
    (0, &[pair(written(2, 3), written(5, 4))]),
    (0, &[pair(Slot { previous: 7, ..written(3, 6) }, written(2, 5))]),
    (0, &[VOLUME]),
    (0, &[pair(NONE, written(1, 1))]),
    (0, &[CUT]),
    (0, &[CUT_B]),
    (0, &[TORN]),
    (0, &[TORN_B]),
    (0, &[LATE]),
    // Unconfirmed: beside any other status
    (0, &[pair(of_status(0), written(3, 6))]),
    (0, &[pair(written(3, 6), of_status(1))]),
    (0, &[pair(of_status(3), written(3, 6))]),
    (0, &[pair(written(3, 6), of_status(7))]),
    (0, &[pair(of_status(8), written(3, 6))]),
    (0, &[pair(written(3, 6), of_status(9))]),
    (0, &[pair(of_status(10), written(3, 6))]),
    // Fork, Refused and Lost
    (0, &[FORK]),
    (0, &[REFUSED]),
    (0, &[REFUSED_B]),
    (0, &[LOST]),
    (0, &[pair(NONE, HEADER)]),
    (0, &[LOST_NUMBER]),
    (0, &[pair(written(LAST, LAST), written(LAST, 5))]),
    // More than 32 bits
    (0, &[pair(Slot { own: u32::MAX, ..written(LAST_32, LAST_32) }, NONE)]),
    (0, &[pair(written(LAST_32 + 1, LAST_32 + 1), written(LAST_32, LAST_32))]),
    // The last generation and the last number
    (0, &[pair(written(LAST - 1, 6), HEADER)]),
    (0, &[pair(written(LAST, 6), HEADER)]),
    (0, &[pair(written(LAST - 1, 5), written(LAST, 6))]),
    (0, &[pair(written(3, LAST - 1), HEADER)]),
    (0, &[ENDED]),
    (0, &[pair(written(2, 4), torn(3, LAST))]),
    (1, &[ENDED, EMPTY]),
    (0, &[VOLUME, pair(torn(2, LAST), UNREAD)]),
    (0, &[VOLUME, ENDED.by_operator(3)]),
    // Numbers: of the pairs before and behind, of older and torn slots, of pairs that are Lost, Refused or a Fork
    (0, &[VOLUME, PAGE]),
    (1, &[pair(written(1, 9), NONE), PAGE]),
    (0, &[VOLUME, pair(written(2, 4), written(1, 8))]),
    (0, &[VOLUME, LATE]),
    (0, &[VOLUME, LOST_NUMBER]),
    (0, &[VOLUME, REFUSED]),
    (0, &[VOLUME, FORK]),
    // A torn payload that shows no number, and statuses that never do
    (0, &[VOLUME, pair(Slot { facts: 1, ..of_status(BAD_PAYLOAD) }, of_status(10))]),
    // Operators
    (0, &[VOLUME, PAGE.by_operator(3)]),
    (1, &[VOLUME, PAGE.by_operator(3)]),
    (2, &[PAGE, pair(written(1, 7), NONE).by_operator(15), pair(HEADER, written(2, 2)).by_operator(15)]),
    // No such pair
    (1, &[VOLUME]),
    (2, &[VOLUME, PAGE]),
    (1 << 32, &[VOLUME]),
    (1, &[ENDED]),
];

/// Of the next number and of the number above the winners: an operator, and the row.
const NUMBERS: &[(u8, &[Pair])] = &[
    (0, &[EMPTY]),
    (0, &[VOLUME]),
    (0, &[pair(written(1, 0), NONE)]),
    (0, &[pair(written(2, 9), written(3, 8))]),
    (0, &[pair(written(3, 8), written(2, 9))]),
    (0, &[pair(written(1, 9), NONE), PAGE]),
    (0, &[VOLUME, TORN]),
    (0, &[VOLUME, LOST_NUMBER]),
    (0, &[VOLUME, REFUSED]),
    (0, &[VOLUME, FORK]),
    (0, &[VOLUME, UNCONFIRMED]),
    (0, &[VOLUME, pair(Slot { facts: 1, ..torn(2, 7) }, Slot { facts: 0, ..torn(3, 8) })]),
    (0, &[VOLUME, PAGE.by_operator(15)]),
    (15, &[VOLUME, PAGE.by_operator(15)]),
    (14, &[VOLUME, PAGE.by_operator(15)]),
    (0, &[VOLUME, ENDED.by_operator(3)]),
    (3, &[VOLUME, ENDED.by_operator(3)]),
    (0, &[VOLUME, pair(written(2, LAST_32), NONE)]),
    (0, &[pair(written(1, LAST_32 + 1), NONE), PAGE]),
    (0, &[pair(written(1, LAST - 1), NONE)]),
    (0, &[ENDED]),
    (0, &[VOLUME, pair(written(2, 4), torn(3, LAST))]),
    (16, &[VOLUME]),
    (16, &[ENDED]),
];

/// The clean mark, and the row.
const HEALS: &[(u8, &[Pair])] = &[
    (0, &[VOLUME, PAGE]),
    // A page
    (0, &[VOLUME, TORN]),
    (0, &[VOLUME, TORN_B]),
    (0, &[VOLUME, CUT]),
    (0, &[VOLUME, CUT_B]),
    (0, &[VOLUME, PAGE, CUT_B]),
    (0, &[VOLUME, CUT, pair(written(2, 7), written(1, 3))]),
    (1, &[VOLUME, TORN]),
    // The volume record
    (0, &[CUT_B, PAGE]),
    (0, &[CUT, PAGE_B]),
    (0, &[TORN_B, PAGE]),
    (1, &[CUT_B, PAGE]),
    (0, &[pair(written(1, 0), HEADER)]),
    // In a damaged store
    (0, &[VOLUME, TORN, UNCONFIRMED]),
    (0, &[VOLUME, CUT, LOST_NUMBER]),
    (0, &[CUT_B, LOST_NUMBER]),
    (0, &[CUT_B, FORK]),
    (0, &[CUT_B, LATE]),
    (0, &[CUT_B, pair(of_status(8), of_status(4))]),
    (0, &[CUT_B, REFUSED]),
    (0, &[VOLUME, CUT, CUT]),
    // Operators
    (0, &[pair(written(1, 9), NONE), TORN_B.by_operator(3)]),
    (0, &[CUT_B, pair(written(3, 9), written(2, 8)).by_operator(3)]),
    (0, &[VOLUME, pair(written(1, 7), NONE).by_operator(15), pair(written(2, 2), HEADER).by_operator(15)]),
    // More than 32 bits, and the last generation and number
    (0, &[VOLUME, pair(Slot { own: u32::MAX, ..written(LAST_32, LAST_32) }, HEADER)]),
    (0, &[pair(written(1, LAST_32 + 1), NONE), CUT]),
    (0, &[pair(written(LAST - 1, 5), HEADER)]),
    (0, &[pair(written(LAST, 5), HEADER)]),
    (0, &[pair(written(3, LAST - 1), HEADER)]),
    (0, &[pair(written(3, LAST), HEADER)]),
    (0, &[pair(written(3, LAST - 1), torn(4, LAST))]),
    (0, &[CUT_B, ENDED]),
    // Marks that are none
    (2, &[VOLUME]),
    (255, &[VOLUME]),
];

/// A winner whose values have no two bytes alike.
const UNLIKE: Pair =
    pair(Slot { own: 0x7473_7271, ..written(0x5857_5655_5453_5251, 0x6867_6665_6463_6261) }, nothing(BLANK));

/// A pair, the row, log2 of the slot's size, and the lengths of the buffer and of the payload.
const WRITES: &[(usize, &[Pair], u8, usize, usize)] = &[
    (0, &[UNLIKE], 9, 512, 384),
    (0, &[EMPTY], 9, 512, 3),
    (0, &[PAGE_B], 10, 1024, 0),
    // Refused by the slot
    (0, &[VOLUME], 9, 512, 385),
    (0, &[VOLUME], 9, 511, 385),
    (0, &[VOLUME], 9, 513, 3),
    (0, &[VOLUME], 8, 512, 3),
    (0, &[VOLUME], 17, 512, 3),
    // Nothing is planned, or the plan is refused, whatever the slot is
    (0, &[FORK], 8, 8, 3),
    (0, &[LOST], 8, 8, 3),
    (0, &[REFUSED], 9, 8, 3),
    (1, &[VOLUME], 8, 8, 3),
    (0, &[pair(written(LAST, 6), HEADER)], 8, 8, 3),
    (0, &[ENDED], 8, 8, 3),
];

/// Frames as a line has them: the first frame so often, and the others.
struct Frames {
    times: usize,
    bytes: Vec<u8>,
}

impl Frames {
    fn of(row: &[Pair]) -> Self {
        Self { times: 1, bytes: packed(row) }
    }

    fn packed(&self) -> Vec<u8> {
        [(self.times as u16).packed(), self.bytes.clone()].concat()
    }

    fn whole(&self) -> Vec<u8> {
        let (first, others) = self.bytes.split_at(self.bytes.len().min(FRAME));
        [first.repeat(self.times), others.to_vec()].concat()
    }
}

/// Frames of the volume record so often, and of an Empty pair, up to a length.
fn cut(times: usize, length: usize) -> Frames {
    Frames { times, bytes: packed(&[VOLUME, EMPTY])[..length].to_vec() }
}

/// No frames, and more than those of the most pairs: refused whatever else is wrong.
fn refused_first() -> [Frames; 3] {
    [cut(1, 0), cut(MOST_PAIRS, FRAME + 1), cut(MOST_PAIRS + 1, FRAME)]
}

/// Parts of a frame, and frames with a value out of range.
fn out_of_range() -> [Frames; 6] {
    let spoiled = |length: usize, at: usize, value: u8| {
        let mut frames = cut(1, length);
        frames.bytes[at] = value;
        frames
    };
    [
        cut(1, 1),
        cut(1, FRAME + 1),
        spoiled(FRAME, 0, 13),
        spoiled(FRAME, HALF + 1, 3),
        spoiled(FRAME, FRAME - 1, 1),
        spoiled(2 * FRAME, 2 * FRAME - 1, 16),
    ]
}

pub fn fill(list: &mut List) {
    for (operator, row) in NUMBERS {
        numbers(list, *operator, &Frames::of(row));
    }
    for (pair, row) in PLANS {
        plan(list, *pair, &Frames::of(row));
    }
    for (clean, row) in HEALS {
        heal(list, *clean, &Frames::of(row));
    }
    for (pair, row, log2, room, payload_len) in WRITES {
        next_write(list, *pair, &Frames::of(row), *log2, *room, *payload_len);
    }
    // The most pairs
    let most = |last: Pair| Frames { times: MOST_PAIRS - 1, bytes: packed(&[VOLUME, last]) };
    numbers(list, 0, &most(PAGE));
    for pair in [0, MOST_PAIRS - 1, MOST_PAIRS] {
        plan(list, pair, &most(PAGE));
    }
    heal(list, 0, &most(CUT));
    for frames in refused_first() {
        numbers(list, 16, &frames);
        plan(list, MOST_PAIRS, &frames);
        heal(list, 2, &frames);
        next_write(list, MOST_PAIRS, &frames, 8, 8, 3);
    }
    // An operator and a mark that are none would be 10 as well
    for frames in out_of_range() {
        numbers(list, 0, &frames);
        plan(list, MOST_PAIRS, &frames);
        heal(list, 1, &frames);
        next_write(list, MOST_PAIRS, &frames, 8, 8, 3);
    }
}

fn numbers(list: &mut List, operator: u8, frames: &Frames) {
    let input = [vec![operator], frames.packed()].concat();
    list.line("num", &input, &answer(reference::next_number(&frames.whole(), operator)));
    list.line("win", &input, &answer(reference::heal_number(&frames.whole(), operator)));
}

fn plan(list: &mut List, pair: usize, frames: &Frames) {
    let plan = reference::plan_write(&frames.whole(), pair);
    list.line("pln", &[pair.packed(), frames.packed()].concat(), &answer(plan.map(|plan| write_numbers(&plan))));
}

fn heal(list: &mut List, clean: u8, frames: &Frames) {
    let plan = reference::plan_heal(&frames.whole(), clean);
    list.line("hea", &[vec![clean], frames.packed()].concat(), &answer(plan.map(|plan| heal_numbers(&plan))));
}

fn next_write(list: &mut List, pair: usize, frames: &Frames, log2_slot_size: u8, room: usize, payload_len: usize) {
    let at = PairIdentity {
        volume0: 0xb7b6_b5b4_b3b2_b1b0,
        volume1: 0xbfbe_bdbc_bbba_b9b8,
        object_id: 0x1817_1615_1413_1211,
        offsets: [0x9897_9695_9493_9291, 0x2827_2625_2423_2221],
        log2_slot_size,
        format_major: 2,
        numbered: 1,
    };
    let given = Written { owner_generation: 0x3837_3635_3433_3231, compat_flags: 0x4443_4241 };
    let payload: Vec<u8> = (1..=payload_len).map(|byte| byte as u8).collect();
    let mut slot = vec![FILL; room];
    let made = reference::next_write((&frames.whole(), pair), &at, given, &payload, &mut slot);
    let input = [
        pair.packed(),
        at.volume0.packed(),
        at.volume1.packed(),
        at.object_id.packed(),
        at.offsets.packed(),
        log2_slot_size.packed(),
        given.owner_generation.packed(),
        given.compat_flags.packed(),
        (room as u16).packed(),
        vec![FILL],
        with_len(&payload),
        frames.packed(),
    ];
    let expected = match made {
        Err(refusal) => vec![refusal as u8],
        Ok(next) => {
            let plan = write_numbers(&next.map(|(plan, _)| plan));
            let crc = next.map_or(u32::MAX, |(_, crc)| crc);
            [vec![0], plan.packed(), crc.packed(), slot].concat()
        }
    };
    list.line("wrt", &input.concat(), &expected);
}

/// A refusal's number alone, or 0 and what is answered.
fn answer(answer: Result<impl Value, u32>) -> Vec<u8> {
    match answer {
        Err(refusal) => vec![refusal as u8],
        Ok(found) => [vec![0], found.packed()].concat(),
    }
}
