//! The metadata functions to measure: volume records, table pages and entries, all of them acceptable.

use crate::bench::{cells, Contestant, Table, OURS};
use crate::entry_sample::{accepted, PAGE};
use crate::ffi_table::{self, Header, Limits};
use crate::ffi_volume;
use crate::meta2::{decode_page, encode_page, EntryLimits, Page, PageHeader, RawEntry, VolumeMeta2};
use crate::name_sample::{padded, NAME_MAX};
use crate::page_sample::{written_page, PAGE_HEADER};
use crate::rng::Rng;
use crate::stored::set;
use crate::table_reference::{limits_of, written_entry};
use crate::volume_sample::{random_volume, record_of};
use std::cell::Cell;
use std::hint::black_box;

const RUST: &str = "Rust";

pub const VOLUME_DECODE: Table<Vec<u8>> = Table {
    title: "volume decode",
    unit: "bytes",
    sizes: &[64],
    input: |rng, _| record_of(&random_volume(rng)),
    contestants: &[
        Contestant { name: RUST, call: rust_volume_decode },
        Contestant { name: OURS, call: our_volume_decode },
    ],
};

pub const DECODE_PAGE: Table<PageInput> = Table {
    title: "decode_page",
    unit: "entries",
    sizes: &[0, 41, 681],
    input: page_input,
    contestants: &[Contestant { name: RUST, call: rust_decode_page }, Contestant { name: OURS, call: our_decode_page }],
};

pub const ENCODE_PAGE: Table<PageInput> = Table {
    title: "encode_page",
    unit: "entries",
    sizes: &[0, 41, 681],
    input: page_input,
    contestants: &[
        Contestant { name: "Rust of entries already read", call: rust_encode_page },
        Contestant { name: "Rust with reading the entries", call: read_and_encode_page },
        Contestant { name: OURS, call: our_encode_page },
    ],
};

pub const CHECK_ENTRY: Table<EntryInput> = Table {
    title: "check of an entry",
    unit: "bytes of its name",
    sizes: &[1, 8, NAME_MAX],
    input: entry_input,
    contestants: &[
        Contestant { name: "Rust of an entry already read", call: rust_check },
        Contestant { name: "Rust with reading the entry", call: read_and_check },
        Contestant { name: OURS, call: our_check },
    ],
};

// Each contestant answers some of the numbers found, or 0 where it refuses. `black_box` makes the Rust, whose functions
// the compiler may take into the caller, give all of them.

fn rust_volume_decode(record: &mut Vec<u8>) -> u64 {
    match black_box(VolumeMeta2::decode(record)) {
        Ok(volume) => volume.base.owner_generation ^ u64::from(volume.table_pages),
        Err(_) => 0,
    }
}

fn our_volume_decode(record: &mut Vec<u8>) -> u64 {
    let found = Cell::new([0; 11]);
    ffi_volume::volume_decode(cells(record), &found);
    let [_, _, _, owner_generation, _, _, _, table_pages, ..] = found.get();
    owner_generation ^ table_pages
}

/// A page, as bytes and as the reference has it, with its entries and room for another of its length.
pub struct PageInput {
    bytes: Vec<u8>,
    page: Page<'static>,
    header: Header,
    max_entries: u16,
    entry_bytes: Vec<u8>,
    entries: Vec<RawEntry>,
    out: Vec<u8>,
}

fn page_input(rng: &mut Rng, entries: usize) -> PageInput {
    let written = written_page(rng, entries);
    let page = decoded(written.bytes.clone());
    let PageHeader { page_index, next_seq, count } = page.header;
    PageInput {
        page,
        header: Header { page_index, next_seq, count },
        max_entries: written.max_entries,
        entry_bytes: written.bytes[PAGE_HEADER..].to_vec(),
        entries: page.entries().collect(),
        out: vec![0; written.bytes.len()],
        bytes: written.bytes,
    }
}

/// A decoded page of the reference, which borrows its bytes: they stay for the whole run.
fn decoded(bytes: Vec<u8>) -> Page<'static> {
    let bytes = bytes.leak();
    let index = u32::from_le_bytes(std::array::from_fn(|at| bytes[at]));
    decode_page(bytes, index, u16::MAX).expect("the reference refuses a page")
}

fn rust_decode_page(input: &mut PageInput) -> u64 {
    match black_box(decode_page(&input.bytes, input.header.page_index, input.max_entries)) {
        Ok(page) => page_answer(page.header.next_seq.into(), page.header.count.into()),
        Err(_) => 0,
    }
}

fn our_decode_page(input: &mut PageInput) -> u64 {
    let found = Cell::new([0; 5]);
    ffi_table::decode_page(cells(&mut input.bytes), input.header.page_index, input.max_entries, &found);
    let [_, next_seq, count, ..] = found.get();
    page_answer(next_seq, count)
}

fn page_answer(next_seq: u64, count: u64) -> u64 {
    next_seq << 16 | count
}

fn rust_encode_page(input: &mut PageInput) -> u64 {
    let Header { page_index, next_seq, count } = input.header;
    let header = PageHeader { page_index, next_seq, count };
    encode_page(&mut input.out, &header, &input.entries).map_or(0, |len| len as u64)
}

fn read_and_encode_page(input: &mut PageInput) -> u64 {
    input.entries.clear();
    input.entries.extend(input.page.entries());
    rust_encode_page(input)
}

fn our_encode_page(input: &mut PageInput) -> u64 {
    let written = Cell::new(0);
    ffi_table::encode_page(cells(&mut input.out), &input.header, cells(&mut input.entry_bytes), &written);
    written.get() as u64
}

/// An entry, as bytes and as the reference has it, with its limits.
pub struct EntryInput {
    bytes: Vec<u8>,
    limits: Limits,
    page: Page<'static>,
    raw: RawEntry,
    rust_limits: EntryLimits,
}

fn entry_input(rng: &mut Rng, name_len: usize) -> EntryInput {
    let mut case = accepted(rng);
    case.make_one_block(PAGE);
    case.entry.seq = 0;
    case.entry.name = padded(&vec![b'a'; name_len]);
    let bytes = written_entry(&case.entry).to_vec();
    let mut page = vec![0; PAGE_HEADER];
    set(&mut page, 4..8, 1);
    set(&mut page, 8..10, 1);
    page.extend(&bytes);
    let page = decoded(page);
    let raw = page.entries().next().expect("the reference has no entry in a page of one");
    EntryInput { bytes, limits: case.limits, page, raw, rust_limits: limits_of(&case.limits) }
}

fn rust_check(input: &mut EntryInput) -> u64 {
    check(&input.raw, &input.rust_limits)
}

fn read_and_check(input: &mut EntryInput) -> u64 {
    input.page.entries().next().map_or(0, |raw| check(&raw, &input.rust_limits))
}

fn check(raw: &RawEntry, limits: &EntryLimits) -> u64 {
    match black_box(raw.check(limits)) {
        Ok(entry) => entry.span_end ^ entry.footprint_seq,
        Err(_) => 0,
    }
}

fn our_check(input: &mut EntryInput) -> u64 {
    let found = Cell::new([0; 13]);
    let name = Cell::new([0; NAME_MAX]);
    let name_len = Cell::new(0);
    ffi_table::check_entry(cells(&mut input.bytes), &input.limits, &found, &name, &name_len);
    let [.., span_end, footprint_seq] = found.get();
    span_end ^ footprint_seq
}
