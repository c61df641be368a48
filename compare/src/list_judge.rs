//! The fixed list of the judge: rows for the judge over frames and the judge over records, and what they refuse.
//!
//! | NAME | judges | INPUT | EXPECTED |
//! |---|---|---|---|
//! | jdg | both | MARK, frames | 0 (1), JUDGEMENT, verdicts |
//! | frm | over frames | MARK, frames | refusal (1) |
//! | row | over records | MARK, frames | refusal (1), verdicts as they were |
//!
//! The widths in bytes are in brackets. MARK is the clean mark (1) and the length of the verdicts (2). JUDGEMENT has six
//! numbers (8 each): the slot to heal, its pair, writable, clean, refused, whether owners differ. Frames and verdicts go to
//! the end of their field. At a refusal of the judge over frames verdicts and judgement are as they were.

use crate::frames::{
    bad_header, bad_payload, nothing, packed, pair, valid, Pair, Slot, BAD_HEADER, BLANK, BLANK_A, BLANK_B, FIRST,
    FORK, FRAME, HALF, LOST, LOST_NUMBER, NO_LINK, NUMBER_ABOVE, NUMBER_BELOW, NUMBER_LAST, OLDER_HEADER_A,
    OLDER_HEADER_B, OLDER_PAYLOAD_A, OLDER_PAYLOAD_B, OTHER_OWNER, OWNER, REFUSED_A, REFUSED_B, SOUND_A, SOUND_B,
    TORN_HEADER_A, TORN_HEADER_B, TORN_PAYLOAD_A, TORN_PAYLOAD_B, UNREAD_A, UNREAD_B, VALID,
};
use crate::judge_reference::{judge, judge_records, Judged, MOST_PAIRS, VERDICT};
use crate::list::List;
use crate::value::Value;

/// In pair 1 the header of B is torn.
const EXAMPLE: [Pair; 2] = [
    pair(Slot { facts: 0, previous: 0, ..valid(1, 1) }, nothing(BLANK)),
    pair(Slot { facts: 0, own: 0x2222_2222, previous: 0x3333_3333, ..valid(2, 2) }, bad_header(0x4444_4444)),
];

/// The pair with this owner in a slot.
const fn by_owner(mut pair: Pair, slot: usize, owner: u64) -> Pair {
    pair.slots[slot].owner = owner;
    pair
}

/// The pair with another owner in a slot.
const fn by_other(pair: Pair, slot: usize) -> Pair {
    by_owner(pair, slot, OTHER_OWNER)
}

/// Ahead in number of every other pair, and beside a torn payload of the same number.
const AHEAD: Pair = pair(valid(1, 9), nothing(BLANK));
const SAME_NUMBER: Pair = pair(valid(1, 5), nothing(BLANK));

/// A torn payload whose number is the lowest that one can have.
const SECOND: Pair = pair(valid(1, 1), bad_payload(2, 2, 0x1111_1111));

/// Clean mark and pairs.
const ROWS: &[(u8, &[Pair])] = &[
    (0, &EXAMPLE),
    // Nothing torn
    (0, &[FIRST]),
    (1, &[SOUND_A, SOUND_B, OLDER_HEADER_A, OLDER_PAYLOAD_A]),
    (0, &[SOUND_B, OLDER_HEADER_B, OLDER_PAYLOAD_B]),
    // A torn page
    (0, &[SOUND_A, TORN_HEADER_A]),
    (0, &[SOUND_A, FIRST, SOUND_B, TORN_HEADER_B, FIRST]),
    (0, &[FIRST, TORN_PAYLOAD_B]),
    (0, &[SOUND_A, TORN_PAYLOAD_A, OLDER_PAYLOAD_A]),
    // A torn page that is not healed: clean mark, another torn page, damage, numbers
    (1, &[SOUND_B, TORN_PAYLOAD_A]),
    (0, &[SOUND_A, TORN_HEADER_B, TORN_PAYLOAD_A]),
    (0, &[SOUND_A, TORN_HEADER_A, UNREAD_B]),
    (0, &[SOUND_A, TORN_PAYLOAD_A, OLDER_PAYLOAD_B]),
    (0, &[SOUND_A, NUMBER_BELOW]),
    (0, &[SOUND_A, NUMBER_ABOVE, NO_LINK]),
    (0, &[FIRST, NUMBER_LAST, LOST_NUMBER]),
    (0, &[pair(valid(1, u64::MAX), nothing(BLANK)), pair(valid(2, 2), bad_payload(3, 0, 0x1111_1111))]),
    (0, &[FIRST, pair(valid(u64::MAX, 2), bad_payload(0, 3, 0x1111_1111))]),
    (0, &[FIRST, pair(valid(u64::MAX - 1, 2), bad_payload(u64::MAX, 3, 0x1111_1111))]),
    // A torn volume record
    (0, &[TORN_HEADER_A, UNREAD_A, LOST]),
    (1, &[TORN_HEADER_B, SOUND_A]),
    (1, &[TORN_PAYLOAD_A, SOUND_B, FORK]),
    (0, &[TORN_PAYLOAD_B, NUMBER_LAST]),
    (0, &[TORN_HEADER_A, TORN_HEADER_B]),
    (0, &[TORN_PAYLOAD_B, REFUSED_B]),
    // Operators: another one's number is ahead of a torn page's, level with it, or just below it
    (0, &[AHEAD, TORN_PAYLOAD_B.by_operator(1)]),
    (0, &[SAME_NUMBER, TORN_PAYLOAD_B.by_operator(1)]),
    (0, &[AHEAD, SECOND.by_operator(15)]),
    (0, &[SOUND_A, TORN_PAYLOAD_A.by_operator(15)]),
    // Its own operator's number is ahead or level
    (0, &[SOUND_A, AHEAD.by_operator(1), TORN_PAYLOAD_B.by_operator(1)]),
    (0, &[SOUND_A, TORN_PAYLOAD_B.by_operator(1), SAME_NUMBER.by_operator(1)]),
    // A torn volume record and a torn header beside another operator's number ahead
    (0, &[TORN_PAYLOAD_A, AHEAD.by_operator(1)]),
    (0, &[AHEAD, TORN_HEADER_B.by_operator(1)]),
    // Clean mark, torn pages of two operators, and damage under another operator
    (1, &[AHEAD, TORN_PAYLOAD_B.by_operator(1)]),
    (0, &[AHEAD, TORN_PAYLOAD_B.by_operator(1), TORN_PAYLOAD_B.by_operator(2)]),
    (0, &[AHEAD, TORN_PAYLOAD_B.by_operator(1), UNREAD_A.by_operator(2)]),
    // A volume record that is Unconfirmed or has no winner
    (1, &[UNREAD_B, SOUND_A]),
    (1, &[BLANK_A, TORN_HEADER_A]),
    (0, &[BLANK_B, NUMBER_BELOW]),
    (0, &[LOST, SOUND_A]),
    // Refused
    (1, &[SOUND_A, REFUSED_A, TORN_HEADER_A]),
    (1, &[REFUSED_B]),
    // Owners: another page's, pair 0's, of pages beside a volume record without a winner, of an older slot and of a page. Slots in
    // flight have another one in all rows
    (0, &[SOUND_A, FIRST, by_other(SOUND_B, 1)]),
    (0, &[by_other(SOUND_A, 0), SOUND_B, FIRST]),
    (0, &[LOST_NUMBER, by_other(FIRST, 0), SOUND_A]),
    (0, &[SOUND_A, by_other(SOUND_B, 0), by_other(FIRST, 1)]),
    (0, &[SOUND_A, by_other(TORN_PAYLOAD_A, 1), by_other(FIRST, 0)]),
    // Facts that show too little or too much
    (0, &[FIRST, pair(valid(2, 2), Slot { facts: 0, ..bad_header(7) })]),
    (0, &[FIRST, pair(valid(2, 2), Slot { code: BAD_HEADER, ..bad_payload(9, 9, 9) })]),
    (0, &[FIRST, pair(Slot { facts: 1, ..bad_payload(3, 3, 0x1111_1111) }, Slot { facts: 0, ..valid(2, 2) })]),
    // A torn payload that stores another previous checksum, or one that differs in its highest byte; of the winner's generation, two
    // above it, and 2^32 and one above it; with a number 2^32 too high
    (0, &[SOUND_A, NO_LINK]),
    (0, &[SOUND_A, pair(valid(2, 4), bad_payload(3, 5, 0x0111_1111))]),
    (0, &[SOUND_A, pair(bad_payload(2, 5, 0x1111_1111), valid(2, 4))]),
    (0, &[SOUND_A, pair(valid(2, 4), bad_payload(4, 5, 0x1111_1111))]),
    (0, &[SOUND_A, pair(valid(2, 4), bad_payload(0x1_0000_0003, 5, 0x1111_1111))]),
    (0, &[SOUND_A, pair(valid(2, 4), bad_payload(3, 0x1_0000_0005, 0x1111_1111))]),
    // A torn header whose checksum differs from the winner's previous one in its highest byte
    (0, &[SOUND_A, pair(valid(2, 4), bad_header(0x0222_2222))]),
    // Two Valid slots: the lower number in the higher generation, and forks in which one is chained to the other
    (0, &[SOUND_A, pair(valid(3, 3), valid(2, 4))]),
    (0, &[SOUND_A, pair(valid(2, 4), Slot { previous: 0x1111_1111, ..valid(2, 5) })]),
    (0, &[SOUND_A, pair(Slot { previous: 0x1111_1111, ..valid(2, 5) }, valid(2, 4))]),
    // A torn volume record beside a refused page, and beside a torn page whose number is not the next one
    (0, &[TORN_HEADER_A, REFUSED_A]),
    (1, &[TORN_PAYLOAD_A, SOUND_B, REFUSED_A]),
    (0, &[TORN_HEADER_A, NUMBER_ABOVE]),
    // A torn page beside a lost one and a refused one; three torn pages
    (0, &[SOUND_A, TORN_HEADER_A, LOST]),
    (0, &[SOUND_A, TORN_HEADER_A, REFUSED_B]),
    (0, &[SOUND_A, TORN_HEADER_A, TORN_HEADER_B, TORN_PAYLOAD_A]),
    // A torn second page beside a volume record that is Unconfirmed, and a torn page beside one that is lost
    (0, &[UNREAD_B, SOUND_A, TORN_HEADER_A]),
    (0, &[LOST, TORN_HEADER_A]),
    // Owners: 0, of a page, of pair 0 and of both; 2^32 apart; of an Unconfirmed winner; with a lost pair between
    (0, &[SOUND_A, by_owner(FIRST, 0, 0)]),
    (0, &[by_owner(FIRST, 0, 0), SOUND_A]),
    (0, &[by_owner(FIRST, 0, 0), by_owner(FIRST, 0, 0)]),
    (0, &[SOUND_A, by_owner(FIRST, 0, OWNER + (1 << 32))]),
    (0, &[SOUND_A, by_other(UNREAD_A, 1)]),
    (0, &[SOUND_A, LOST, by_other(FIRST, 0)]),
    // Operators that are 8 apart
    (0, &[FIRST, TORN_PAYLOAD_B.by_operator(1), AHEAD.by_operator(9)]),
];

/// Of the judge over frames: clean mark, length of the frames, length of the verdicts, and a byte of the frames with its
/// value.
const REFUSALS: [(u8, usize, usize, usize, u8); 8] = [
    (2, 0, 1, 0, 0),
    (2, 1, 0, 0, 13),
    (0, 2 * FRAME + 1, 2 * VERDICT, 0, VALID),
    (2, 2 * FRAME, 2 * VERDICT - 1, 0, 13),
    (0, 2 * FRAME, 2 * VERDICT + 1, 0, VALID),
    (2, FRAME, VERDICT, 0, VALID),
    (0, 2 * FRAME, 2 * VERDICT, FRAME + HALF, 13),
    (0, 2 * FRAME, 2 * VERDICT, FRAME + 1, 3),
];

/// Of the judge over records: clean mark, pairs, and as how many verdicts are lent.
const ROW_REFUSALS: &[(u8, &[Pair], usize)] = &[
    (0, &[], 0),
    (1, &[], 1),
    (0, &[], 5),
    (0, &[FIRST], 0),
    (1, &[SOUND_A], 2),
    (0, &[SOUND_A, TORN_HEADER_A], 1),
    (0, &[SOUND_A, TORN_PAYLOAD_A, SOUND_B], 5),
    (1, &[SOUND_A, FIRST, SOUND_B, TORN_HEADER_B, FIRST], 4),
];

/// Of both judges: pairs with an operator that they must not have, and as how many verdicts are lent.
const OPERATOR_REFUSALS: &[(&[Pair], usize)] =
    &[(&[FIRST, SOUND_A.by_operator(16)], 2), (&[FIRST.by_operator(3), SOUND_A], 2), (&[FIRST.by_operator(255)], 0)];

pub fn fill(list: &mut List) {
    for (clean, row) in ROWS {
        let frames = packed(row);
        both(list, *clean, &frames);
    }
    for (clean, frames_len, verdicts_len, at, value) in REFUSALS {
        let mut frames = packed(&[FIRST, SOUND_B, FIRST]);
        frames[at] = value;
        over_frames(list, clean, verdicts_len, &frames[..frames_len]);
    }
    for (clean, row, room) in ROW_REFUSALS {
        over_records(list, *clean, &packed(row), *room);
    }
    for (row, room) in OPERATOR_REFUSALS {
        over_frames(list, 0, room * VERDICT, &packed(row));
        over_records(list, 0, &packed(row), *room);
    }
    // A byte more than the most pairs have, and a record more
    let frames = packed(&[SOUND_A; MOST_PAIRS + 1]);
    over_frames(list, 2, 0, &frames[..MOST_PAIRS * FRAME + 1]);
    over_records(list, 0, &frames, MOST_PAIRS + 1);
}

/// A row for both judges.
pub fn both(list: &mut List, clean: u8, frames: &[u8]) -> Judged {
    let verdicts_len = frames.len() / FRAME * VERDICT;
    let judged = judge(frames, clean, verdicts_len).expect("the reference refuses a row of pairs");
    let expected = [vec![0], judged.judgement.packed(), judged.verdicts.clone()].concat();
    list.line("jdg", &input(clean, verdicts_len, frames), &expected);
    judged
}

/// Frames that the judge over frames refuses.
pub fn over_frames(list: &mut List, clean: u8, verdicts_len: usize, frames: &[u8]) -> u32 {
    let Err(refusal) = judge(frames, clean, verdicts_len) else { panic!("the reference refuses no such frames") };
    list.line("frm", &input(clean, verdicts_len, frames), &[refusal as u8]);
    refusal
}

/// A row that the judge over records refuses.
pub fn over_records(list: &mut List, clean: u8, frames: &[u8], room: usize) -> u32 {
    let (refusal, verdicts) = judge_records(frames, clean == 1, room);
    list.line("row", &input(clean, room * VERDICT, frames), &[vec![refusal as u8], verdicts].concat());
    refusal
}

fn input(clean: u8, verdicts_len: usize, frames: &[u8]) -> Vec<u8> {
    [vec![clean], (verdicts_len as u16).packed(), frames.to_vec()].concat()
}
