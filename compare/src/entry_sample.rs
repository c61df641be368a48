//! Table entries that their checks accept, and entries of any fields, with the limits that they are checked with.

use crate::ffi_table::{Entry, Limits};
use crate::name_sample::{padded, random_name, random_stored};
use crate::rng::Rng;

pub const APPEND: u8 = 1;
pub const PAGE: u8 = 2;
pub const SLOT: u8 = 3;

/// The unit of an append region's data.
pub const SECTOR: u64 = 512;

/// An entry with the limits that it is checked with.
#[derive(Clone, Copy)]
pub struct Case {
    pub entry: Entry,
    pub limits: Limits,
}

impl Case {
    /// The block, of the nearest size that can be.
    pub fn block(&self) -> u64 {
        1 << self.limits.log2_block.clamp(12, 16)
    }

    /// The length of the span, which may be reversed.
    pub fn span(&self) -> u64 {
        self.entry.span_end.wrapping_sub(self.entry.span_start)
    }

    /// Makes it a slot region.
    pub fn make_slot(&mut self) {
        self.entry.kind = SLOT;
        self.entry.extent_count = 0;
        self.entry.capacity = 0;
        self.entry.data_size = 0;
    }

    /// Makes it a region of one block and no data, for which every acceptable span has room.
    pub fn make_one_block(&mut self, kind: u8) {
        self.entry.kind = kind;
        self.entry.extent_count = self.entry.extent_count.max(1);
        self.entry.capacity = self.block();
        self.entry.data_size = 0;
    }

    /// Makes it a span of two blocks, both of them headers.
    pub fn make_two_blocks(&mut self, span_start: u64) {
        let block = self.block();
        self.entry.span_start = span_start;
        self.entry.span_end = span_start + 2 * block;
        self.entry.header_a = span_start + block;
        self.entry.header_b = span_start;
        self.limits.table_end = self.limits.table_end.min(span_start);
        self.limits.file_len = self.limits.file_len.max(self.entry.span_end);
        if self.entry.kind != SLOT {
            self.make_one_block(self.entry.kind);
        }
    }

    /// Puts both headers at the ends of the span.
    pub fn put_headers_at_ends(&mut self) {
        self.entry.header_a = self.entry.span_start;
        self.entry.header_b = self.entry.span_end - self.block();
        self.limits.table_end = self.limits.table_end.min(self.entry.span_start);
    }
}

/// An entry that is accepted.
pub fn accepted(rng: &mut Rng) -> Case {
    let log2_block = rng.between(12, 16) as u8;
    let block = 1u64 << log2_block;
    // In blocks, at least two of them.
    let end = match rng.below(4) {
        0 => rng.between(2, u64::MAX >> log2_block),
        _ => rng.between(2, 40),
    };
    let start = rng.between(0, end - 2);
    let header_a = rng.between(start, end - 1);
    let mut header_b = rng.between(start, end - 2);
    if header_b >= header_a {
        header_b += 1;
    }
    let footprint_seq = rng.any().max(1);
    let entry = Entry {
        kind: rng.pick(&[APPEND, PAGE, SLOT]),
        state: 1,
        flags: rng.below(4) as u8,
        name: padded(&random_name(rng)),
        header_a: header_a * block,
        header_b: header_b * block,
        span_start: start * block,
        span_end: end * block,
        footprint_seq,
        ..any_entry(rng)
    };
    let limits = Limits {
        log2_block,
        table_end: rng.between(0, header_a.min(header_b) * block),
        file_len: rng.between(end * block, u64::MAX),
        page_meta_seq: rng.between(footprint_seq, u64::MAX),
    };
    let mut case = Case { entry, limits };
    if case.entry.kind == SLOT {
        case.make_slot();
    } else {
        case.make_one_block(case.entry.kind);
        let capacity = rng.between(1, end - start) * block;
        case.entry.capacity = capacity;
        let unit = if case.entry.kind == APPEND { SECTOR } else { block };
        case.entry.data_size = rng.between(0, capacity / unit) * unit;
    }
    case
}

/// Changes of an accepted entry to the edge of a check, after which it is still accepted.
pub const EDGES: &[fn(&mut Case)] = &[
    |case| case.entry.flags = 3,
    |case| case.entry.compat_flags = 0xff,
    |case| case.entry.seq = u32::MAX,
    |case| case.entry.name = [b'z'; 24],
    |case| case.limits.file_len = case.entry.span_end,
    |case| case.limits.table_end = case.entry.header_a.min(case.entry.header_b),
    |case| case.limits.page_meta_seq = case.entry.footprint_seq,
    |case| {
        case.entry.footprint_seq = u64::MAX;
        case.limits.page_meta_seq = u64::MAX;
    },
    |case| case.entry.footprint_seq = 1,
    |case| std::mem::swap(&mut case.entry.header_a, &mut case.entry.header_b),
    Case::put_headers_at_ends,
    |case| case.make_two_blocks(0),
    |case| case.make_two_blocks(0u64.wrapping_sub(3 * case.block())),
    Case::make_slot,
    |case| {
        case.make_one_block(PAGE);
        case.entry.capacity = case.span();
        case.entry.data_size = case.span();
    },
    |case| {
        case.make_one_block(APPEND);
        case.entry.data_size = SECTOR;
    },
    |case| {
        case.make_one_block(APPEND);
        case.entry.data_size = case.block() - SECTOR;
    },
];

pub fn any_entry(rng: &mut Rng) -> Entry {
    Entry {
        seq: rng.any() as u32,
        kind: rng.any() as u8,
        state: rng.any() as u8,
        flags: rng.any() as u8,
        compat_flags: rng.any() as u8,
        name: random_stored(rng),
        tag: rng.any() as u32,
        extent_count: rng.any() as u16,
        header_a: rng.any(),
        header_b: rng.any(),
        data_size: rng.any(),
        capacity: rng.any(),
        span_start: rng.any(),
        span_end: rng.any(),
        footprint_seq: rng.any(),
    }
}

pub fn any_limits(rng: &mut Rng) -> Limits {
    Limits { log2_block: rng.any() as u8, table_end: rng.any(), file_len: rng.any(), page_meta_seq: rng.any() }
}

/// Around whole blocks, few or as many as 64 bits hold.
pub fn near_blocks(rng: &mut Rng, block: u64) -> u64 {
    let blocks = rng.between(0, 6) * block;
    let near = if rng.one_in(2) { blocks } else { blocks.wrapping_neg() };
    near.wrapping_add(rng.pick(&[0, 0, 0, 1, u64::MAX, 512, block / 2]))
}
