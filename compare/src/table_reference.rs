//! What the Rust reference answers to one call of the functions for table pages and their entries.
//!
//! The reference reads and writes a single entry in private: a page of one entry does it here. The library adds the
//! refusals of entries that are not whole, and a buffer that is too short keeps its bytes.

use crate::ffi_table::{Entry, Header, Limits};
use crate::meta::RegionKind;
use crate::meta2::{
    self, Entry2, EntryLimits, PageHeader, RawEntry, ENTRY2_LEN as ENTRY, PAGE_HEADER_LEN as PAGE_HEADER,
};
use crate::meta_reference::{refusal_number, stored_name, written, Name, Names, NO_NAME};
use crate::outcome::Expected;
use crate::stored::get;

pub const LENGTH: u32 = 11;

const MOST_ENTRIES: usize = 65_535;

/// The two reserved bytes of an entry.
const RESERVED: std::ops::Range<usize> = 38..40;

pub fn decode_page(bytes: &[u8], page_index: u32, max_entries: u16) -> Expected<[u64; 5]> {
    let page = meta2::decode_page(bytes, page_index, max_entries).map_err(refusal_number)?;
    let entries = page.entries().count() * ENTRY;
    let PageHeader { page_index, next_seq, count } = page.header;
    Ok([page_index.into(), next_seq.into(), count.into(), PAGE_HEADER as u64, entries as u64])
}

pub fn encode_page(bytes: &mut [u8], header: &Header, entries: &[u8]) -> Expected<usize> {
    if entries.len() % ENTRY != 0 || entries.len() / ENTRY > MOST_ENTRIES {
        return Err(LENGTH);
    }
    let entries: Vec<RawEntry> = entries.chunks(ENTRY).map(raw_entry).collect();
    written(bytes, |out| meta2::encode_page(out, &page_header(header), &entries))
}

pub fn page_header(header: &Header) -> PageHeader {
    PageHeader { page_index: header.page_index, next_seq: header.next_seq, count: header.count }
}

/// The entry in 96 bytes, from a page of it alone. A page holds no entry with the number u32::MAX or with reserved bytes:
/// this number is taken from the bytes, and no answer of the reference depends on the reserved ones.
pub fn raw_entry(bytes: &[u8]) -> RawEntry {
    let mut page = [0; PAGE_HEADER + ENTRY];
    page[4..8].fill(0xff);
    page[8] = 1;
    let (_, entry) = page.split_at_mut(PAGE_HEADER);
    entry.copy_from_slice(bytes);
    entry[RESERVED].fill(0);
    let last_seq = bytes[..4] == [0xff; 4];
    if last_seq {
        entry[..4].fill(0);
    }
    let page = meta2::decode_page(&page, 0, 1).expect("the reference refuses a page of one entry");
    let mut raw = page.entries().next().expect("the reference has no entry in a page of one");
    if last_seq {
        raw.seq = u32::MAX;
    }
    raw
}

/// The 96 bytes of an entry, from a page of it alone.
fn entry_bytes(raw: &RawEntry) -> [u8; ENTRY] {
    let mut page = [0; PAGE_HEADER + ENTRY];
    let header = PageHeader { page_index: 0, next_seq: 0, count: 1 };
    meta2::encode_page(&mut page, &header, &[*raw]).expect("the reference refuses to write a page of one entry");
    std::array::from_fn(|at| page[PAGE_HEADER + at])
}

fn raw_of(entry: &Entry) -> RawEntry {
    let mut raw = raw_entry(&[0; ENTRY]);
    raw.seq = entry.seq;
    raw.kind = entry.kind;
    raw.state = entry.state;
    raw.flags = entry.flags;
    raw.compat_flags = entry.compat_flags;
    raw.name = entry.name;
    raw.tag = entry.tag;
    raw.extent_count = entry.extent_count;
    raw.header_a = entry.header_a;
    raw.header_b = entry.header_b;
    raw.data_size = entry.data_size;
    raw.capacity = entry.capacity;
    raw.span_start = entry.span_start;
    raw.span_end = entry.span_end;
    raw.footprint_seq = entry.footprint_seq;
    raw
}

/// The entry in the first 96 bytes.
fn first_entry(bytes: &[u8]) -> Expected<RawEntry> {
    bytes.get(..ENTRY).map(raw_entry).ok_or(LENGTH)
}

pub fn read_entry(bytes: &[u8]) -> Expected<([u64; 15], [u8; 24])> {
    let raw = first_entry(bytes)?;
    let numbers = [
        raw.seq.into(),
        raw.kind.into(),
        raw.state.into(),
        raw.flags.into(),
        raw.compat_flags.into(),
        raw.tag.into(),
        raw.extent_count.into(),
        get(bytes, RESERVED),
        raw.header_a,
        raw.header_b,
        raw.data_size,
        raw.capacity,
        raw.span_start,
        raw.span_end,
        raw.footprint_seq,
    ];
    Ok((numbers, raw.name))
}

pub fn write_entry(bytes: &mut [u8], entry: &Entry) -> Expected<usize> {
    let out = bytes.get_mut(..ENTRY).ok_or(LENGTH)?;
    out.copy_from_slice(&written_entry(entry));
    Ok(ENTRY)
}

pub fn written_entry(entry: &Entry) -> [u8; ENTRY] {
    entry_bytes(&raw_of(entry))
}

pub fn limits_of(limits: &Limits) -> EntryLimits {
    EntryLimits {
        log2_block: limits.log2_block,
        table_end: limits.table_end,
        file_len: limits.file_len,
        page_meta_seq: limits.page_meta_seq,
    }
}

/// The same with the name that the reference is asked about.
fn asked_entry(bytes: &[u8], names: Names) -> Expected<RawEntry> {
    let mut raw = first_entry(bytes)?;
    raw.name = names.asked_padded(raw.name);
    Ok(raw)
}

fn checked(bytes: &[u8], limits: &Limits, names: Names) -> Expected<Entry2> {
    asked_entry(bytes, names)?.check(&limits_of(limits)).map_err(refusal_number)
}

pub fn check_entry(bytes: &[u8], limits: &Limits, names: Names) -> Expected<([u64; 13], Name)> {
    let entry = checked(bytes, limits, names)?;
    let numbers = [
        entry.seq.into(),
        kind_number(entry.kind).into(),
        entry.flags.into(),
        entry.compat_flags.into(),
        entry.tag.into(),
        entry.extent_count.into(),
        entry.header_a,
        entry.header_b,
        entry.data_size,
        entry.capacity,
        entry.span_start,
        entry.span_end,
        entry.footprint_seq,
    ];
    Ok((numbers, stored_name(&entry.name)))
}

fn kind_number(kind: RegionKind) -> u8 {
    match kind {
        RegionKind::Append => 1,
        RegionKind::Page => 2,
        RegionKind::Slot => 3,
    }
}

pub fn entry_to_raw(bytes: &[u8], limits: &Limits, names: Names) -> Expected<[u8; ENTRY]> {
    Ok(entry_bytes(&checked(bytes, limits, names)?.to_raw()))
}

pub fn entry_name(bytes: &[u8], names: Names) -> Expected<Name> {
    let name = asked_entry(bytes, names)?.name();
    Ok(name.map_or(NO_NAME, |name| stored_name(&name)))
}

pub fn entry_name_and_kind(bytes: &[u8], names: Names) -> Expected<(u8, Name)> {
    let found = asked_entry(bytes, names)?.name_and_kind();
    Ok(found.map_or((0, NO_NAME), |(name, kind)| (kind_number(kind), stored_name(&name))))
}

pub fn reserved_span(bytes: &[u8], limits: &Limits) -> Expected<[u64; 2]> {
    let span = first_entry(bytes)?.reserved_span(&limits_of(limits));
    Ok(span.map_or([0, 0], |(start, end)| [start, end]))
}
