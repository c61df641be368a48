//! The plan of a pair's next write to measure: on stores with one torn page where there is a page, of one operator and of several, for the
//! last pair.

use crate::bench::{cells, Contestant, Table, OURS};
use crate::ffi_plan;
use crate::frames::{operators_in_turn, packed, Cut, Pair, Slot, Store, FRAME};
use crate::judge_reference::MOST_PAIRS;
use crate::pair::decide;
use crate::rng::Rng;
use crate::slot::{SlotInfo, SlotStatus};
use crate::slot_reference::{some_info, status};
use std::cell::Cell;

/// A store as frames; the buffers are used for every call.
pub struct Input {
    frames: Vec<u8>,
    some_info: SlotInfo,
}

const SIZES: &[usize] = &[1, 16, MOST_PAIRS];

const CONTESTANTS: &[Contestant<Input>] =
    &[Contestant { name: "Rust in one pass", call: rust_plan }, Contestant { name: OURS, call: our_plan }];

pub const PLAN_WRITE: Table<Input> = Table {
    title: "next write, planned",
    unit: "pairs",
    sizes: SIZES,
    input: |rng, pairs| torn_store(rng, &vec![0; pairs]),
    contestants: CONTESTANTS,
};

pub const PLAN_WRITE_OPERATORS: Table<Input> = Table {
    title: "next write, planned, sixteen operators",
    unit: "pairs",
    sizes: SIZES,
    input: |rng, pairs| torn_store(rng, &operators_in_turn(pairs)),
    contestants: CONTESTANTS,
};

fn torn_store(rng: &mut Rng, operators: &[u8]) -> Input {
    let pairs = operators.len();
    let mut store = Store::new(rng, operators);
    store.write_some(rng, 2 * pairs);
    store.tear(rng, pairs / 2, Cut::Payload);
    Input { frames: packed(&store.row), some_info: some_info() }
}

/// The status that a part has the code of, with what `decide` looks at.
fn part_status(some_info: &SlotInfo, part: &Slot) -> SlotStatus {
    let mut info = *some_info;
    info.generation = part.generation;
    info.header_crc32c = part.own;
    info.prev_header_crc32c = part.previous;
    status(part.code.into(), &info).expect("a code is out of range")
}

fn rust_plan(input: &mut Input) -> u64 {
    let last = Pair::read(&input.frames[input.frames.len() - FRAME..]);
    let mut most = 0;
    for (at, frame) in input.frames.chunks_exact(FRAME).enumerate() {
        let pair = Pair::read(frame);
        assert!(pair.is_in_range(at), "a value is out of range");
        if pair.operator == last.operator {
            for slot in pair.slots.iter().filter(|slot| slot.is_numbered()) {
                most = most.max(slot.number);
            }
        }
    }
    let [a, b] = &last.slots;
    let report = decide(part_status(&input.some_info, a), part_status(&input.some_info, b));
    let (Some(index), Some((_, winner))) = (report.next_write(), report.winner_info()) else { return 0 };
    let plan = [index as u64 + 1, winner.generation + 1, winner.header_crc32c.into(), most + 1];
    sum(&plan)
}

fn our_plan(input: &mut Input) -> u64 {
    let plan = Cell::new([0; 4]);
    let pair = input.frames.len() / FRAME - 1;
    assert_eq!(ffi_plan::plan_write(cells(&mut input.frames), pair, &plan), 0);
    sum(&plan.get())
}

fn sum(plan: &[u64; 4]) -> u64 {
    plan.iter().fold(0, |sum, value| sum.wrapping_mul(31).wrapping_add(*value))
}
