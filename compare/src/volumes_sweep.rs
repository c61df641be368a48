//! Every case of a small range of volume records and places of the table.

use crate::ffi_volume::{Base, Geometry, Volume};
use crate::meta_reference as reference;
use crate::part::{Checked, Run};
use crate::stored::{flip, set};
use crate::volume_sample::{
    any_base, any_volume, base_record_of, random_base, random_volume, record_of, BASE, BASE_FAULTS, CLEAN, ENTRIES,
    LOG2_BLOCK, LOG2_TABLE, MOST_PAGES, RECORD, TABLE_OFFSET, TABLE_PAGES,
};
use crate::volumes::{
    compare_base_decode, compare_base_encode, compare_decode, compare_encode, compare_entries_per_page,
    compare_file_len, compare_table_end, record_faults, BASE_PLACE, PLACE,
};

const PAGES: [u32; 9] = [0, 1, 2, 0xffff, 1 << 16, MOST_PAGES - 1, MOST_PAGES, MOST_PAGES + 1, u32::MAX];

const REPEATS: usize = 100;

pub fn sweep(run: &mut Run) -> Checked {
    accepted(run)?;
    single_faults(run)?;
    pairs_of_faults(run)?;
    every_byte(run)?;
    every_size(run)?;
    table_offsets(run)?;
    entries_and_pages(run)?;
    decoded_lengths(run)?;
    written_lengths(run)?;
    random_records(run)?;
    ends_of_tables(run)
}

/// The record as a whole, and its first 48 bytes with what follows and alone.
fn compare_all(run: &mut Run, record: &[u8]) -> Checked {
    compare_decode(run, record)?;
    compare_base_decode(run, record)?;
    compare_base_decode(run, &record[..record.len().min(BASE)])
}

fn accepted(run: &mut Run) -> Checked {
    for block in 12..=16 {
        for table in block..=16 {
            for table_pages in [1, 2, 1 << 16, MOST_PAGES] {
                for clean_close in [0, 1] {
                    let volume = random_volume(&mut run.rng);
                    let base = Base {
                        log2_block_size: block,
                        log2_table_slot_size: table,
                        table_offset: 2 << block,
                        ..volume.base
                    };
                    let entries_per_page = reference::entries_per_page(table);
                    let record = record_of(&Volume { base, table_pages, entries_per_page, clean_close, flags: 0 });
                    assert!(reference::volume_decode(&record).is_ok(), "the reference refuses a record");
                    compare_all(run, &record)?;
                }
            }
        }
    }
    Ok(())
}

fn single_faults(run: &mut Run) -> Checked {
    for fault in record_faults() {
        for _ in 0..REPEATS {
            let mut record = record_of(&random_volume(&mut run.rng));
            (fault.make)(&mut record, &mut run.rng);
            fault.count(run, PLACE, &reference::volume_decode(&record));
            compare_all(run, &record)?;
        }
    }
    for fault in BASE_FAULTS {
        for _ in 0..REPEATS {
            let mut record = base_record_of(&random_base(&mut run.rng));
            (fault.make)(&mut record, &mut run.rng);
            fault.count(run, BASE_PLACE, &reference::volume_base_decode(&record));
            compare_base_decode(run, &record)?;
        }
    }
    Ok(())
}

/// Every two faults together, so that the order of any two checks shows.
fn pairs_of_faults(run: &mut Run) -> Checked {
    for first in record_faults() {
        for second in record_faults() {
            for _ in 0..8 {
                let mut record = record_of(&random_volume(&mut run.rng));
                (first.make)(&mut record, &mut run.rng);
                (second.make)(&mut record, &mut run.rng);
                compare_all(run, &record)?;
            }
        }
    }
    Ok(())
}

/// Every value of every byte.
fn every_byte(run: &mut Run) -> Checked {
    let record = record_of(&random_volume(&mut run.rng));
    for at in 0..RECORD {
        for value in 0..=255 {
            let mut record = record.clone();
            record[at] = value;
            compare_all(run, &record)?;
        }
    }
    Ok(())
}

/// Every two sizes, with the table's place and entries fitting them where that can be.
fn every_size(run: &mut Run) -> Checked {
    for block in 0..=255u8 {
        for table in (0..=20).chain([32, 63, 64, 64 + 16, 255]) {
            let mut record = record_of(&random_volume(&mut run.rng));
            set(&mut record, LOG2_BLOCK, block.into());
            set(&mut record, LOG2_TABLE, table.into());
            set(&mut record, TABLE_OFFSET, 2u64.wrapping_shl(block.into()));
            set(&mut record, ENTRIES, reference::entries_per_page(table).into());
            compare_all(run, &record)?;
        }
    }
    Ok(())
}

/// Around whole blocks, and single bits.
fn table_offsets(run: &mut Run) -> Checked {
    for block in 12..=16 {
        let base = Base { log2_block_size: block, log2_table_slot_size: 16, ..random_base(&mut run.rng) };
        let around = [0, 1 << block, 2 << block, 3 << block, 0u64.wrapping_sub(1 << block)];
        let offsets = around.iter().flat_map(|offset| [offset.wrapping_sub(1), *offset, offset.wrapping_add(1)]);
        for table_offset in offsets.chain((0..64).map(|bit| 1 << bit)) {
            let volume = Volume { entries_per_page: 681, ..random_volume(&mut run.rng) };
            let base = Base { table_offset, ..base };
            compare_all(run, &record_of(&Volume { base, ..volume }))?;
        }
    }
    Ok(())
}

/// Every number of entries, every mark, and the edges of the number of pages.
fn entries_and_pages(run: &mut Run) -> Checked {
    for entries in (0..=1400).chain((0..16).map(|bit| 1 << bit)).chain([0xffff]) {
        let mut record = record_of(&random_volume(&mut run.rng));
        set(&mut record, ENTRIES, entries);
        compare_decode(run, &record)?;
    }
    for mark in 0..=255 {
        let mut record = record_of(&random_volume(&mut run.rng));
        set(&mut record, CLEAN, mark);
        compare_decode(run, &record)?;
    }
    for pages in PAGES {
        let mut record = record_of(&random_volume(&mut run.rng));
        set(&mut record, TABLE_PAGES, pages.into());
        compare_decode(run, &record)?;
    }
    Ok(())
}

fn decoded_lengths(run: &mut Run) -> Checked {
    for len in (0..=3 * RECORD).chain([256 + RECORD, 65_536 + RECORD]) {
        let mut record = record_of(&random_volume(&mut run.rng));
        record.resize(len, 0);
        compare_all(run, &record)?;
        let mut record = run.rng.bytes(len);
        compare_all(run, &record)?;
        record.fill(0);
        compare_all(run, &record)?;
    }
    Ok(())
}

fn written_lengths(run: &mut Run) -> Checked {
    for len in 0..=3 * RECORD {
        for _ in 0..8 {
            let volume = any_volume(&mut run.rng);
            compare_encode(run, len, &volume)?;
            let volume = random_volume(&mut run.rng);
            compare_encode(run, len, &volume)?;
            let base = any_base(&mut run.rng);
            compare_base_encode(run, len, &base)?;
        }
    }
    Ok(())
}

/// Random bytes, every bit of an acceptable record, and records of any fields.
fn random_records(run: &mut Run) -> Checked {
    let record = record_of(&random_volume(&mut run.rng));
    for bit in 0..8 * RECORD {
        let mut record = record.clone();
        flip(&mut record, bit);
        compare_all(run, &record)?;
        let random = run.rng.bytes(RECORD);
        compare_all(run, &random)?;
        let any = record_of(&any_volume(&mut run.rng));
        compare_all(run, &any)?;
    }
    Ok(())
}

fn ends_of_tables(run: &mut Run) -> Checked {
    for log2_table in 0..=255 {
        compare_entries_per_page(run, log2_table)?;
    }
    for log2_block_size in (0..=20).chain([63, 64, 64 + 12, 128 + 12, 255]) {
        for log2_table_slot_size in (0..=20).chain([63, 64, 64 + 12, 128 + 16, 255]) {
            for table_pages in PAGES {
                let at = Geometry { log2_block_size, log2_table_slot_size, table_pages };
                compare_table_end(run, &at)?;
                let end = reference::table_end(&at).unwrap_or(1 << 14);
                for file_len in [0, end - 1, end, end + 1, end ^ 1 << 32, u64::MAX] {
                    compare_file_len(run, &at, file_len)?;
                }
            }
        }
    }
    Ok(())
}
