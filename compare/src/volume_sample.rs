//! Volume records: acceptable ones, and what can be wrong with them.

use crate::ffi_volume::{Base, Volume};
use crate::meta_reference as reference;
use crate::places::Fault;
use crate::rng::Rng;
use crate::sample::YES;
use crate::stored::{flip_in, get, set};
use std::ops::Range;

pub const RECORD: usize = 64;
pub const BASE: usize = 48;

pub const LOG2_BLOCK: Range<usize> = 0..1;
pub const LOG2_TABLE: Range<usize> = 1..2;
pub const ZERO_4: Range<usize> = 4..8;
pub const TABLE_OFFSET: Range<usize> = 16..24;
pub const FEATURES: Range<usize> = 32..40;
pub const ZERO_40: Range<usize> = 40..48;
pub const TABLE_PAGES: Range<usize> = 48..52;
pub const ENTRIES: Range<usize> = 52..54;
pub const CLEAN: Range<usize> = 54..55;
pub const ZERO_55: Range<usize> = 55..56;
pub const FLAGS: Range<usize> = 56..60;
pub const ZERO_60: Range<usize> = 60..64;

/// Sizes out of range, some of them in it where only the low bits of the shift count.
pub const LOG2S_BELOW: [u8; 4] = [0, 1, 9, 11];
pub const LOG2S_ABOVE: [u8; 8] = [17, 32, 44, 63, 64, 64 + 12, 128 + 13, 255];

pub const MOST_PAGES: u32 = (1 << 30) - 1;

/// The faults that the 48 bytes of both formats have in common, in the order of the checks.
pub const BASE_FAULTS: &[Fault<Vec<u8>>] = &[
    Fault::new("below 48 bytes", 11, |record, rng| record.truncate(rng.below(BASE))),
    Fault::new("features", 20, |record, rng| flip_in(rng, record, FEATURES)),
    Fault::new("zeros at 4", 22, |record, rng| flip_in(rng, record, ZERO_4)),
    Fault::new("zeros at 40", 22, |record, rng| flip_in(rng, record, ZERO_40)),
    Fault::new("block below 12", 23, |record, rng| set(record, LOG2_BLOCK, rng.pick(&LOG2S_BELOW).into())),
    Fault::new("block above 16", 23, |record, rng| set(record, LOG2_BLOCK, rng.pick(&LOG2S_ABOVE).into())),
    Fault::new("table below block", 24, table_below_block),
    Fault::new("table above 16", 24, |record, rng| set(record, LOG2_TABLE, rng.pick(&LOG2S_ABOVE).into())),
    Fault::new("offset in a block", 13, offset_in_a_block),
];

/// The faults of the whole record besides those.
pub const RECORD_FAULTS: &[Fault<Vec<u8>>] = &[
    Fault::new("63 bytes", 11, |record, _| record.truncate(RECORD - 1)),
    Fault::new("65 bytes or more", 11, |record, rng| record.resize(RECORD + 1 + rng.below(64), 0)),
    Fault::new("flags", 21, |record, rng| flip_in(rng, record, FLAGS)),
    Fault::new("zero at 55", 22, |record, rng| flip_in(rng, record, ZERO_55)),
    Fault::new("zeros at 60", 22, |record, rng| flip_in(rng, record, ZERO_60)),
    Fault::new("offset not two blocks", 25, other_whole_blocks),
    Fault::new("no page", 26, |record, _| set(record, TABLE_PAGES, 0)),
    Fault::new("2^30 pages or more", 26, |record, rng| set(record, TABLE_PAGES, rng.between(1 << 30, u32::MAX.into()))),
    Fault::new("entries", 27, other_entries),
    Fault::new("clean mark", 28, |record, rng| set(record, CLEAN, rng.between(2, 255))),
];

fn table_below_block(record: &mut Vec<u8>, rng: &mut Rng) {
    let below = get(record, LOG2_BLOCK).saturating_sub(1);
    set(record, LOG2_TABLE, rng.between(0, below));
}

fn offset_in_a_block(record: &mut Vec<u8>, rng: &mut Rng) {
    let bits = get(record, LOG2_BLOCK).clamp(12, 16) as usize;
    let offset = get(record, TABLE_OFFSET);
    set(record, TABLE_OFFSET, offset ^ 1 << rng.below(bits));
}

fn other_whole_blocks(record: &mut Vec<u8>, rng: &mut Rng) {
    let bits = get(record, LOG2_BLOCK).clamp(12, 16);
    let blocks = rng.pick(&[0, 1, 3, 4, 1 << 32, 1 << 47, (1 << 47) + 2]);
    set(record, TABLE_OFFSET, blocks << bits);
}

fn other_entries(record: &mut Vec<u8>, rng: &mut Rng) {
    let entries = get(record, ENTRIES);
    let others = [0, 1, 41, 83, 169, 339, 681, 0xffff, entries ^ 1, entries + 1, entries ^ 0x8000];
    let other = rng.pick(&others);
    set(record, ENTRIES, if other == entries { entries ^ 0x100 } else { other });
}

/// A record that decodes.
pub fn random_volume(rng: &mut Rng) -> Volume {
    let block = rng.between(12, 16) as u8;
    let table = rng.between(block.into(), 16) as u8;
    Volume {
        base: Base {
            log2_block_size: block,
            log2_table_slot_size: table,
            table_offset: 2 << block,
            features: 0,
            ..any_base(rng)
        },
        table_pages: rng.between(1, MOST_PAGES.into()) as u32,
        entries_per_page: reference::entries_per_page(table),
        clean_close: if rng.one_in(2) { rng.pick(&YES) } else { 0 },
        flags: 0,
    }
}

/// A part of both formats that decodes: its table may begin with any block.
pub fn random_base(rng: &mut Rng) -> Base {
    let base = random_volume(rng).base;
    let block = base.log2_block_size;
    Base { table_offset: rng.between(0, u64::MAX >> block) << block, ..base }
}

pub fn any_base(rng: &mut Rng) -> Base {
    Base {
        log2_block_size: rng.any() as u8,
        log2_table_slot_size: rng.any() as u8,
        device_index: rng.any() as u16,
        owner_generation: rng.any(),
        table_offset: rng.any(),
        created_unix_s: rng.any(),
        features: rng.any(),
    }
}

pub fn any_volume(rng: &mut Rng) -> Volume {
    Volume {
        base: any_base(rng),
        table_pages: rng.any() as u32,
        entries_per_page: rng.any() as u16,
        clean_close: if rng.one_in(2) { rng.pick(&YES) } else { 0 },
        flags: rng.any() as u32,
    }
}

pub fn record_of(volume: &Volume) -> Vec<u8> {
    let mut record = vec![0; RECORD];
    reference::volume_encode(&mut record, volume).expect("the reference refuses to write a record");
    record
}

pub fn base_record_of(base: &Base) -> Vec<u8> {
    let mut record = vec![0; BASE];
    reference::volume_base_encode(&mut record, base).expect("the reference refuses to write a record");
    record
}
