//! The judge to measure: on stores with one torn page where there is a page, of one operator and of several, on stores with damage in
//! every eighth pair, and on the most pairs with a torn payload in every page. The Rust's judge knows no operators: the decoder reads and
//! tests them, and of several the one torn page has the highest number of all, so that both answer alike.

use crate::bench::{cells, Contestant, Table, OURS};
use crate::ffi;
use crate::frames::{bad_payload, operators_in_turn, packed, pair, valid, Cut, Pair, Store, SOUND_A};
use crate::judge::{judge, PairRead, PairVerdict, SlotRead};
use crate::judge_reference::{
    decode, judgement_numbers, verdict_bytes, JUDGEMENT, MOST_PAIRS, NOT_JUDGED, NOT_READ, VERDICT,
};
use crate::rng::Rng;
use crate::slot::{SlotIndex, SlotInfo, SlotStatus};
use crate::slot_reference::some_info;
use std::cell::Cell;

const CLEAN: u8 = 0;

/// A store as frames and as pairs, with room for the verdicts of both. The buffers are used for every call.
pub struct Input {
    frames: Vec<u8>,
    verdict_bytes: Vec<u8>,
    some_info: SlotInfo,
    pairs: Vec<PairRead>,
    verdicts: Vec<PairVerdict>,
}

const SIZES: &[usize] = &[1, 16, MOST_PAIRS];

const CONTESTANTS: &[Contestant<Input>] = &[
    Contestant { name: "Rust over decoded pairs", call: rust_judge },
    Contestant { name: "Rust with a plain decoder", call: decode_and_judge },
    Contestant { name: OURS, call: our_judge },
];

pub const JUDGE: Table<Input> =
    Table { title: "judge", unit: "pairs", sizes: SIZES, input: torn_store, contestants: CONTESTANTS };

pub const JUDGE_DAMAGED: Table<Input> = Table {
    title: "judge, damage in every eighth pair",
    unit: "pairs",
    sizes: SIZES,
    input: damaged_store,
    contestants: CONTESTANTS,
};

pub const JUDGE_OPERATORS: Table<Input> = Table {
    title: "judge, sixteen operators, which the Rust takes for one",
    unit: "pairs",
    sizes: SIZES,
    input: store_of_operators,
    contestants: CONTESTANTS,
};

pub const JUDGE_ASCENDING: Table<Input> = Table {
    title: "judge, torn payloads, ascending numbers",
    unit: "pairs",
    sizes: &[MOST_PAIRS],
    input: |_, pairs| torn_payloads(0..pairs),
    contestants: CONTESTANTS,
};

pub const JUDGE_DESCENDING: Table<Input> = Table {
    title: "judge, torn payloads, descending numbers",
    unit: "pairs",
    sizes: &[MOST_PAIRS],
    input: |_, pairs| torn_payloads((0..pairs).rev()),
    contestants: CONTESTANTS,
};

fn torn_store(rng: &mut Rng, pairs: usize) -> Input {
    let mut store = Store::new(rng, &vec![0; pairs]);
    store.write_some(rng, 2 * pairs);
    store.tear(rng, pairs / 2, Cut::Payload);
    input(&store.row)
}

/// The torn page is written until its number is the highest of all operators.
fn store_of_operators(rng: &mut Rng, pairs: usize) -> Input {
    let mut store = Store::new(rng, &operators_in_turn(pairs));
    store.write_some(rng, 2 * pairs);
    for _ in 0..3 * pairs {
        store.write(rng, pairs / 2);
    }
    store.tear(rng, pairs / 2, Cut::Payload);
    input(&store.row)
}

/// After the volume record a page for each place but the first: a winner, and a torn payload with the number after it.
fn torn_payloads(places: impl Iterator<Item = usize>) -> Input {
    let torn = |place: usize| {
        let winner = valid(2, 4 + 2 * place as u64);
        pair(winner, bad_payload(3, winner.number + 1, winner.own))
    };
    let row: Vec<Pair> = [SOUND_A].into_iter().chain(places.skip(1).map(torn)).collect();
    input(&row)
}

fn damaged_store(rng: &mut Rng, pairs: usize) -> Input {
    let mut store = Store::new(rng, &vec![0; pairs]);
    store.write_some(rng, 2 * pairs);
    for pair in (0..pairs).step_by(8) {
        store.damage(rng, pair);
    }
    input(&store.row)
}

fn input(row: &[Pair]) -> Input {
    let pairs = row.len();
    let mut input = Input {
        frames: packed(row),
        verdict_bytes: vec![0; pairs * VERDICT],
        some_info: some_info(),
        pairs: vec![NOT_READ; pairs],
        verdicts: vec![NOT_JUDGED; pairs],
    };
    decode_and_judge(&mut input);
    input
}

/// A judgement in one number.
fn answer([slot, pair, writable, clean, refused, differ]: [u64; JUDGEMENT]) -> u64 {
    pair << 8 | slot << 6 | writable << 3 | clean << 2 | refused << 1 | differ
}

/// The Rust's judgement, and whether owners differ, which it does not say; 0 where it refuses.
fn rust_judge(input: &mut Input) -> u64 {
    let Ok(judgement) = judge(&input.pairs, CLEAN == 1, &mut input.verdicts) else { return 0 };
    let [slot, pair, writable, clean, refused] = judgement_numbers(&judgement);
    answer([slot, pair, writable, clean, refused, owners_differ(&input.pairs, &input.verdicts).into()])
}

/// Tests the ranges, and writes the verdicts' bytes.
fn decode_and_judge(input: &mut Input) -> u64 {
    if !decode(&input.some_info, &input.frames, &mut input.pairs) {
        return 0;
    }
    let answer = rust_judge(input);
    for (bytes, verdict) in input.verdict_bytes.chunks_exact_mut(VERDICT).zip(&input.verdicts) {
        bytes.copy_from_slice(&verdict_bytes(verdict));
    }
    answer
}

/// Two winners, any two: each is compared with the first one.
fn owners_differ(pairs: &[PairRead], verdicts: &[PairVerdict]) -> bool {
    let mut owners = pairs.iter().zip(verdicts).filter_map(|(pair, verdict)| match verdict.winner? {
        SlotIndex::A => owner(&pair.a),
        SlotIndex::B => owner(&pair.b),
    });
    let first = owners.next();
    owners.any(|owner| Some(owner) != first)
}

fn owner(slot: &SlotRead) -> Option<u64> {
    match slot.status {
        SlotStatus::Valid(info) => Some(info.owner_generation),
        _ => None,
    }
}

fn our_judge(input: &mut Input) -> u64 {
    let judgement = Cell::new([0; JUDGEMENT]);
    ffi::judge(cells(&mut input.frames), CLEAN, cells(&mut input.verdict_bytes), &judgement);
    answer(judgement.get())
}
