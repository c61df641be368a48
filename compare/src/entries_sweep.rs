//! Every case of a small range of table entries.

use crate::entries::{compare_all, compare_case, compare_span, compare_write, PLACE};
use crate::entry_faults::FAULTS;
use crate::entry_sample::{accepted, any_entry, any_limits, Case, APPEND, EDGES, PAGE, SLOT};
use crate::ffi_table::Limits;
use crate::lent::Lent;
use crate::meta_reference::Names;
use crate::name_sample::random_stored;
use crate::page_sample::ENTRY;
use crate::part::{Checked, Run};
use crate::stored::{flip, set};
use crate::table_reference as reference;
use std::ops::Range;

const SPAN_START: Range<usize> = 72..80;
const SPAN_END: Range<usize> = 80..88;

/// The fields of an entry of one number.
const NUMBERS: [Range<usize>; 15] = [
    0..4,
    4..5,
    5..6,
    6..7,
    7..8,
    32..36,
    36..38,
    38..40,
    40..48,
    48..56,
    56..64,
    64..72,
    SPAN_START,
    SPAN_END,
    88..96,
];

const REPEATS: usize = 200;

pub fn sweep(run: &mut Run) -> Checked {
    edges(run)?;
    single_faults(run)?;
    pairs_of_faults(run)?;
    every_byte(run)?;
    every_bit(run)?;
    field_values(run)?;
    limit_values(run)?;
    kinds_and_sizes(run)?;
    names(run)?;
    lengths(run)?;
    random_entries(run)?;
    spans(run)
}

/// Accepted entries, also at the edges of the checks, each edge alone and with another.
fn edges(run: &mut Run) -> Checked {
    for first in EDGES {
        for second in EDGES {
            for _ in 0..8 {
                let mut case = accepted(&mut run.rng);
                compare_accepted(run, &case)?;
                first(&mut case);
                compare_accepted(run, &case)?;
                second(&mut case);
                compare_case(run, &case)?;
            }
        }
    }
    Ok(())
}

fn compare_accepted(run: &mut Run, case: &Case) -> Checked {
    let checked = reference::check_entry(&reference::written_entry(&case.entry), &case.limits, Names::Printable);
    assert!(checked.is_ok(), "the reference refuses an entry with {checked:?}");
    compare_case(run, case)
}

fn single_faults(run: &mut Run) -> Checked {
    for fault in FAULTS {
        for _ in 0..REPEATS {
            let mut case = accepted(&mut run.rng);
            (fault.make)(&mut case, &mut run.rng);
            let checked =
                reference::check_entry(&reference::written_entry(&case.entry), &case.limits, Names::Printable);
            fault.count(run, PLACE, &checked);
            compare_case(run, &case)?;
        }
    }
    Ok(())
}

/// Every two faults together, so that the order of any two checks shows.
fn pairs_of_faults(run: &mut Run) -> Checked {
    for first in FAULTS {
        for second in FAULTS {
            for _ in 0..4 {
                let mut case = accepted(&mut run.rng);
                (first.make)(&mut case, &mut run.rng);
                (second.make)(&mut case, &mut run.rng);
                compare_case(run, &case)?;
            }
        }
    }
    Ok(())
}

/// Every value of every byte.
fn every_byte(run: &mut Run) -> Checked {
    for at in 0..ENTRY {
        let case = accepted(&mut run.rng);
        let entry = reference::written_entry(&case.entry);
        for value in 0..=255 {
            let mut entry = entry;
            entry[at] = value;
            compare_all(run, &entry, &case.limits)?;
        }
    }
    Ok(())
}

fn every_bit(run: &mut Run) -> Checked {
    for _ in 0..8 {
        let case = accepted(&mut run.rng);
        let mut entry = reference::written_entry(&case.entry);
        for bit in 0..8 * ENTRY {
            flip(&mut entry, bit);
            compare_all(run, &entry, &case.limits)?;
            flip(&mut entry, bit);
        }
    }
    Ok(())
}

/// Every field at its edges.
fn field_values(run: &mut Run) -> Checked {
    for field in NUMBERS {
        let high = 1 << (8 * field.len() - 1);
        let blocks = (9..=17).map(|log2| 1 << log2);
        let ends = (12..=16).map(|log2| 0u64.wrapping_sub(1 << log2));
        for value in [0, 1, 2, 3, 4, high - 1, high, u64::MAX - 1, u64::MAX].into_iter().chain(blocks).chain(ends) {
            for _ in 0..8 {
                let case = accepted(&mut run.rng);
                let mut entry = reference::written_entry(&case.entry);
                set(&mut entry, field.clone(), value);
                compare_all(run, &entry, &case.limits)?;
            }
        }
    }
    Ok(())
}

/// Every block size, and limits around the numbers of the entry.
fn limit_values(run: &mut Run) -> Checked {
    for log2_block in 0..=255 {
        let mut case = accepted(&mut run.rng);
        case.limits.log2_block = log2_block;
        compare_case(run, &case)?;
    }
    for _ in 0..REPEATS {
        let case = accepted(&mut run.rng);
        let Case { entry, limits } = case;
        for number in [entry.header_a, entry.header_b, entry.span_start, entry.span_end, entry.footprint_seq] {
            for value in [0, number.wrapping_sub(1), number, number.wrapping_add(1), u64::MAX] {
                compare_case(run, &Case { limits: Limits { table_end: value, ..limits }, ..case })?;
                compare_case(run, &Case { limits: Limits { file_len: value, ..limits }, ..case })?;
                compare_case(run, &Case { limits: Limits { page_meta_seq: value, ..limits }, ..case })?;
            }
        }
    }
    Ok(())
}

/// Every kind with extents, capacity and data around none, a sector and a block.
fn kinds_and_sizes(run: &mut Run) -> Checked {
    for kind in 0..=4 {
        for extent_count in [0, 1, 0xffff] {
            for log2_block in 12..=16 {
                let block = 1u64 << log2_block;
                let sizes = [0, 1, 511, 512, 513, block - 512, block - 1, block, block + 1, block + 512, 2 * block];
                for capacity in sizes {
                    for data_size in sizes {
                        let mut case = accepted(&mut run.rng);
                        case.limits.log2_block = log2_block;
                        case.make_two_blocks(4 * block);
                        case.entry.kind = kind;
                        case.entry.extent_count = extent_count;
                        case.entry.capacity = capacity;
                        case.entry.data_size = data_size;
                        compare_case(run, &case)?;
                    }
                }
            }
        }
    }
    Ok(())
}

/// Good and bad names beside good and bad kinds.
fn names(run: &mut Run) -> Checked {
    for kind in [0, APPEND, PAGE, SLOT, 4, 255] {
        for _ in 0..10 * REPEATS {
            let mut case = accepted(&mut run.rng);
            case.entry.kind = kind;
            case.entry.name = random_stored(&mut run.rng);
            compare_case(run, &case)?;
        }
    }
    Ok(())
}

/// Buffers around the 96 bytes; those after them may be anything.
fn lengths(run: &mut Run) -> Checked {
    for len in 0..=2 * ENTRY + 1 {
        for _ in 0..4 {
            let case = accepted(&mut run.rng);
            let mut entry = reference::written_entry(&case.entry).to_vec();
            entry.resize(len, 0);
            if len > ENTRY {
                run.rng.fill(&mut entry[ENTRY..]);
            }
            compare_all(run, &entry, &case.limits)?;
            compare_write(run, len, &case.entry)?;
            let entry = any_entry(&mut run.rng);
            compare_write(run, len, &entry)?;
        }
    }
    Ok(())
}

fn random_entries(run: &mut Run) -> Checked {
    for _ in 0..10 * REPEATS {
        let entry = run.rng.bytes(ENTRY);
        let limits = any_limits(&mut run.rng);
        compare_all(run, &entry, &limits)?;
    }
    Ok(())
}

/// Spans, ends of tables and lengths of files around whole blocks, from the first to the last.
fn spans(run: &mut Run) -> Checked {
    for log2_block in [0, 11, 12, 14, 16, 17, 64 + 13, 255] {
        let block = 1u64 << log2_block.clamp(12, 16);
        let last = block.wrapping_neg();
        let places = [0, 1, block - 1, block, block + 1, 2 * block, last - 1, last, last + 1, u64::MAX];
        for span_start in places {
            for span_end in places {
                let mut entry = run.rng.bytes(ENTRY);
                set(&mut entry, SPAN_START, span_start);
                set(&mut entry, SPAN_END, span_end);
                let lent = Lent::holding(&mut run.rng, &entry);
                for table_end in places {
                    for file_len in places {
                        let limits = Limits { log2_block, table_end, file_len, page_meta_seq: 0 };
                        compare_span(run, &lent, &limits)?;
                    }
                }
            }
        }
    }
    Ok(())
}
