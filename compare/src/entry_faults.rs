//! What can be wrong with a table entry, or with the limits that it is checked with.

use crate::entry_sample::{near_blocks, Case, APPEND, PAGE, SECTOR};
use crate::name_sample::{insert_bad_run, insert_unprintable, padded, NAME_MAX};
use crate::places::Fault;
use crate::rng::Rng;
use crate::volume_sample::{LOG2S_ABOVE, LOG2S_BELOW};

/// At least one fault for each check, in the order of the checks.
pub const FAULTS: &[Fault<Case>] = &[
    Fault::new("flags", 21, |case, rng| case.entry.flags |= 1 << (2 + rng.below(6))),
    Fault::new("block below 12", 32, |case, rng| case.limits.log2_block = rng.pick(&LOG2S_BELOW)),
    Fault::new("block above 16", 32, |case, rng| case.limits.log2_block = rng.pick(&LOG2S_ABOVE)),
    Fault::new("kind 0", 33, |case, _| case.entry.kind = 0),
    Fault::new("kind above 3", 33, |case, rng| case.entry.kind = rng.between(4, 255) as u8),
    Fault::new("released", 34, |case, _| case.entry.state = 2),
    Fault::new("no state", 34, |case, rng| case.entry.state = rng.pick(&[0, 3, 4, 129, 255])),
    Fault::new("no name", 35, |case, _| case.entry.name = [0; NAME_MAX]),
    Fault::new("not UTF-8", 35, |case, rng| {
        let mut name = b"name".to_vec();
        insert_bad_run(&mut name, rng);
        case.entry.name = padded(&name);
    }),
    Fault::new("a name with an unprintable byte", 35, |case, rng| {
        let mut name = b"name".to_vec();
        insert_unprintable(&mut name, rng);
        case.entry.name = padded(&name);
    }),
    Fault::new("a byte after the name", 35, |case, rng| {
        case.entry.name = padded(b"a");
        case.entry.name[2 + rng.below(NAME_MAX - 2)] = b'b';
    }),
    Fault::new("data above capacity", 36, |case, rng| {
        case.entry.data_size = rng.between(case.entry.capacity.saturating_add(1), u64::MAX);
    }),
    Fault::new("empty span", 37, |case, _| case.entry.span_end = case.entry.span_start),
    Fault::new("span that ends first", 37, |case, rng| case.entry.span_end = rng.between(0, case.entry.span_start)),
    Fault::new("span past the file", 37, |case, rng| {
        case.limits.file_len = rng.between(0, case.entry.span_end.saturating_sub(1));
    }),
    Fault::new("capacity above the span", 38, |case, rng| {
        case.entry.capacity = rng.between(case.span().saturating_add(1), u64::MAX);
    }),
    Fault::new("span begins in a block", 13, |case, rng| {
        case.make_one_block(PAGE);
        case.entry.span_start |= in_block(case, rng);
    }),
    Fault::new("span ends in a block", 13, |case, rng| {
        case.entry.span_end |= in_block(case, rng);
        case.limits.file_len = case.limits.file_len.max(case.entry.span_end);
    }),
    Fault::new("A in a block", 13, |case, rng| case.entry.header_a |= in_block(case, rng)),
    Fault::new("A ends past 2^64", 39, |case, _| case.entry.header_a = case.block().wrapping_neg()),
    Fault::new("A before the table's end", 39, |case, rng| {
        case.limits.table_end = rng.between(case.entry.header_a.saturating_add(1), u64::MAX);
    }),
    Fault::new("A before the span", 39, |case, _| {
        case.limits.table_end = 0;
        case.entry.header_a = case.entry.span_start.wrapping_sub(case.block());
    }),
    Fault::new("A past the span", 39, |case, _| case.entry.header_a = case.entry.span_end),
    Fault::new("B in a block", 13, |case, rng| case.entry.header_b |= in_block(case, rng)),
    Fault::new("B ends past 2^64", 39, |case, _| case.entry.header_b = case.block().wrapping_neg()),
    Fault::new("B before the table's end", 39, b_before_the_table_end),
    Fault::new("B before the span", 39, |case, _| {
        case.limits.table_end = 0;
        case.entry.header_b = case.entry.span_start.wrapping_sub(case.block());
    }),
    Fault::new("B past the span", 39, |case, _| case.entry.header_b = case.entry.span_end),
    Fault::new("equal headers", 39, |case, _| case.entry.header_b = case.entry.header_a),
    Fault::new("footprint 0", 40, |case, _| case.entry.footprint_seq = 0),
    Fault::new("footprint above the page's", 40, |case, rng| {
        case.limits.page_meta_seq = rng.between(0, case.entry.footprint_seq.saturating_sub(1));
    }),
    Fault::new("slot with extents", 41, |case, rng| {
        case.make_slot();
        case.entry.extent_count = 1 << rng.below(16);
    }),
    Fault::new("slot with capacity", 41, |case, rng| {
        case.make_slot();
        case.entry.capacity = rng.between(1, 2 * case.block());
    }),
    Fault::new("slot with data", 41, |case, rng| {
        case.make_slot();
        case.entry.capacity = case.block();
        case.entry.data_size = rng.between(1, case.block());
    }),
    Fault::new("no extent", 42, |case, rng| {
        case.make_one_block(rng.pick(&[APPEND, PAGE]));
        case.entry.extent_count = 0;
    }),
    Fault::new("no capacity", 38, |case, rng| {
        case.make_one_block(rng.pick(&[APPEND, PAGE]));
        case.entry.capacity = 0;
    }),
    Fault::new("capacity in a block", 13, |case, rng| {
        case.make_one_block(rng.pick(&[APPEND, PAGE]));
        case.entry.capacity |= in_block(case, rng);
    }),
    Fault::new("append data in a sector", 13, |case, rng| {
        case.make_one_block(APPEND);
        case.entry.data_size = rng.between(0, case.block() / SECTOR - 1) * SECTOR + rng.between(1, SECTOR - 1);
    }),
    Fault::new("page data in a block", 13, |case, rng| {
        case.make_one_block(PAGE);
        case.entry.data_size = rng.between(1, case.block() / SECTOR - 1) * SECTOR;
    }),
];

/// A number that is not a whole block, all of it below one.
fn in_block(case: &Case, rng: &mut Rng) -> u64 {
    rng.between(1, case.block() - 1)
}

/// A stands past the table's end.
fn b_before_the_table_end(case: &mut Case, rng: &mut Rng) {
    let (low, high) = (case.entry.header_a.min(case.entry.header_b), case.entry.header_a.max(case.entry.header_b));
    case.entry.header_a = high;
    case.entry.header_b = low;
    case.limits.table_end = rng.between(high.min(low.saturating_add(1)), high);
}

/// Sets one number to the edge of something.
pub fn set_some_number(rng: &mut Rng, case: &mut Case) {
    let block = case.block();
    let value = near_blocks(rng, block);
    let Case { entry, limits } = case;
    let numbers = [
        &mut entry.header_a,
        &mut entry.header_b,
        &mut entry.data_size,
        &mut entry.capacity,
        &mut entry.span_start,
        &mut entry.span_end,
        &mut entry.footprint_seq,
        &mut limits.table_end,
        &mut limits.file_len,
        &mut limits.page_meta_seq,
    ];
    let at = rng.below(numbers.len());
    if let Some(number) = numbers.into_iter().nth(at) {
        *number = value;
    }
}
