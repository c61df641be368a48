//! The fixed list of metadata: region names, volume records, table pages and their entries.
//!
//! | NAME | INPUT | EXPECTED |
//! |---|---|---|
//! | nam | bytes | refusal (1), where not refused the name (24) and its length (1) |
//! | pad | stored name (24) | the same |
//! | vde | bytes | refusal, where not refused the eleven numbers found (8 each) |
//! | ven | VOLUME, BUFFER | refusal, where not refused the bytes written (8) and the buffer |
//! | bde | bytes | refusal, where not refused the seven numbers found (8 each) |
//! | ben | BASE, BUFFER | as ven |
//! | epp | log2 of the table slot's size (1) | entries (4) |
//! | end | SIZES | refusal, where not refused the table's end (8) |
//! | fit | SIZES, length of the file (8) | refusal |
//! | pde | page index (4), most entries (2), bytes | refusal, where not refused the five numbers found (8 each) |
//! | pen | page index (4), next_seq (4), count (2), BUFFER, entries | as ven |
//! | ere | bytes | refusal, where not refused the fifteen numbers found (8 each) and the name (24) |
//! | ewr | ENTRY, BUFFER | as ven |
//! | ech | LIMITS, bytes | refusal, where not refused the thirteen numbers found (8 each), name (24), its length (1) |
//! | raw | LIMITS, bytes | refusal, where not refused the entry as it is stored (96) |
//! | ena | bytes | refusal, where not refused the name (24) and its length (1) |
//! | enk | bytes | refusal, where not refused the kind (1), the name (24) and its length (1) |
//! | rsp | LIMITS, bytes | refusal, where not refused start and end (8 each) |
//!
//! The widths in bytes are in brackets.
//!
//! - BASE: log2 of the block size (1), log2 of the table slot's size (1), device index (2), owner generation (8), table
//!   offset (8), created (8), features (8).
//! - VOLUME: BASE, table pages (4), entries per page (2), clean mark (4), flags (4).
//! - BUFFER: a length (2), at most 1,024, and a byte (1); the buffer holds this byte everywhere before the call.
//! - SIZES: log2 of the block size (1), log2 of the table slot's size (1), table pages (4).
//! - ENTRY: seq (4), kind (1), state (1), flags (1), compatible flags (1), name (24), tag (4), extents (2), header A,
//!   header B, data size, capacity, span start, span end, footprint number (8 each).
//! - LIMITS: log2 of the block size (1), table end, length of the file, the page's number (8 each).
//!
//! Bytes and entries go to the end of their field. At a refusal all that is lent is as it was.

use crate::entry_faults;
use crate::entry_sample::{accepted, any_entry, Case, EDGES};
use crate::ffi_table::{Entry, Header, Limits};
use crate::ffi_volume::{Base, Geometry, Volume};
use crate::list::List;
use crate::meta_reference::{self as reference, Name, Names};
use crate::name_sample::{self, padded, random_name, NAME_MAX};
use crate::outcome::Expected;
use crate::page_sample::{self, random_entries, written_page, Page, ENTRY, PAGE_HEADER};
use crate::table_reference as tables;
use crate::value::Value;
use crate::volume_sample::{
    any_base, any_volume, base_record_of, random_base, random_volume, record_of, BASE, BASE_FAULTS, MOST_PAGES, RECORD,
    RECORD_FAULTS,
};

const FILL: u8 = 0xa5;

/// Names at the edges: of one and of 24 bytes, and the first and the last character of each length.
const NAMES: [&[u8]; 6] = [
    b"a",
    b"abcdefghijklmnopqrstuvwx",
    " ~\u{80}\u{7ff}".as_bytes(),
    "\u{800}\u{d7ff}\u{e000}\u{ffff}".as_bytes(),
    "\u{10000}\u{10ffff}".as_bytes(),
    "boot \u{e9}\u{20ac}\u{1f4be}".as_bytes(),
];

/// Log2 of block and table slot, pages.
const SIZES: [(u8, u8, u32); 11] = [
    (12, 12, 0),
    (12, 12, 1),
    (12, 16, MOST_PAGES),
    (16, 16, u32::MAX),
    (14, 15, 3),
    (11, 12, 1),
    (17, 17, 1),
    (64 + 12, 64 + 12, 1),
    (13, 12, 1),
    (12, 17, 1),
    (11, 17, 1),
];

/// Entries, count in the header, length of the buffer beside the page's, bytes of a further entry.
const PAGES: [(usize, u16, isize, usize); 7] =
    [(0, 0, 0, 0), (2, 2, 0, 0), (1, 1, 9, 0), (1, 1, -1, 0), (2, 1, 0, 0), (1, 2, -1, 0), (1, 1, 0, 95)];

pub fn fill(list: &mut List) {
    names(list);
    volumes(list);
    sizes(list);
    pages(list);
    entries(list);
}

/// A case whose answer is a refusal, or what it gives.
fn line<T>(list: &mut List, name: &str, input: &[&[u8]], answer: Expected<T>, pack: impl FnOnce(T) -> Vec<u8>) {
    let expected = match answer {
        Ok(given) => [vec![0], pack(given)].concat(),
        Err(refusal) => vec![refusal as u8],
    };
    list.line(name, &input.concat(), &expected);
}

fn packed_name((name, len): Name) -> Vec<u8> {
    [&name[..], &[len]].concat()
}

// ---- names

fn names(list: &mut List) {
    for name in NAMES {
        both_names(list, name);
    }
    for fault in name_sample::FAULTS {
        let mut name = random_name(&mut list.rng);
        (fault.make)(&mut name, &mut list.rng);
        both_names(list, &name);
    }
    let mut behind = padded(b"a");
    behind[NAME_MAX - 1] = b'b';
    line(list, "pad", &[&behind], reference::region_name_padded(behind, Names::Printable), packed_name);
}

fn both_names(list: &mut List, name: &[u8]) {
    line(list, "nam", &[name], reference::region_name(name, Names::Printable), packed_name);
    let stored = padded(name);
    line(list, "pad", &[&stored], reference::region_name_padded(stored, Names::Printable), packed_name);
}

// ---- volume records

fn volumes(list: &mut List) {
    for _ in 0..3 {
        let record = record_of(&random_volume(&mut list.rng));
        line(list, "vde", &[&record], reference::volume_decode(&record), Value::packed);
        line(list, "bde", &[&record], reference::volume_base_decode(&record), Value::packed);
    }
    for fault in BASE_FAULTS.iter().chain(RECORD_FAULTS) {
        let mut record = record_of(&random_volume(&mut list.rng));
        (fault.make)(&mut record, &mut list.rng);
        line(list, "vde", &[&record], reference::volume_decode(&record), Value::packed);
    }
    for fault in BASE_FAULTS {
        let mut record = base_record_of(&random_base(&mut list.rng));
        (fault.make)(&mut record, &mut list.rng);
        line(list, "bde", &[&record], reference::volume_base_decode(&record), Value::packed);
    }
    for len in [0, RECORD - 1, RECORD, RECORD + 5] {
        let volume = any_volume(&mut list.rng);
        written(list, "ven", &packed_volume(&volume), len, &[], |out| reference::volume_encode(out, &volume));
    }
    for len in [0, BASE - 1, BASE, BASE + 5] {
        let base = any_base(&mut list.rng);
        written(list, "ben", &packed_base(&base), len, &[], |out| reference::volume_base_encode(out, &base));
    }
}

/// A case that writes to a buffer.
fn written(
    list: &mut List,
    name: &str,
    fields: &[u8],
    len: usize,
    behind: &[u8],
    write: impl FnOnce(&mut [u8]) -> Expected<usize>,
) {
    let mut out = vec![FILL; len];
    let answer = write(&mut out);
    let buffer = [&(len as u16).packed()[..], &[FILL]].concat();
    line(list, name, &[fields, &buffer, behind], answer, |count| [count.packed(), out].concat());
}

fn packed_base(base: &Base) -> Vec<u8> {
    [
        base.log2_block_size.packed(),
        base.log2_table_slot_size.packed(),
        base.device_index.packed(),
        base.owner_generation.packed(),
        base.table_offset.packed(),
        base.created_unix_s.packed(),
        base.features.packed(),
    ]
    .concat()
}

fn packed_volume(volume: &Volume) -> Vec<u8> {
    [
        packed_base(&volume.base),
        volume.table_pages.packed(),
        volume.entries_per_page.packed(),
        volume.clean_close.packed(),
        volume.flags.packed(),
    ]
    .concat()
}

// ---- the table's place

fn sizes(list: &mut List) {
    for log2 in [0, 11, 12, 13, 14, 15, 16, 17, 64 + 12, 255] {
        list.line("epp", &[log2], &reference::entries_per_page(log2).packed());
    }
    for (log2_block_size, log2_table_slot_size, table_pages) in SIZES {
        let at = Geometry { log2_block_size, log2_table_slot_size, table_pages };
        let input = [vec![log2_block_size, log2_table_slot_size], table_pages.packed()].concat();
        let end = reference::table_end(&at);
        line(list, "end", &[&input], end, Value::packed);
        let end = end.unwrap_or(1);
        for file_len in [end - 1, end] {
            let fits = reference::check_file_len(&at, file_len);
            line(list, "fit", &[&input, &file_len.packed()], fits, |()| Vec::new());
        }
    }
}

// ---- pages

fn pages(list: &mut List) {
    for n in [0, 1, 3] {
        let page = written_page(&mut list.rng, n);
        page_line(list, &page);
    }
    for fault in page_sample::FAULTS {
        let mut page = written_page(&mut list.rng, 2);
        (fault.make)(&mut page, &mut list.rng);
        page_line(list, &page);
    }
    for (n, count, beside, rest) in PAGES {
        let header = Header { page_index: list.rng.next() as u32, next_seq: 9, count };
        let mut entries = random_entries(&mut list.rng, n, header.next_seq);
        entries.extend(list.random_bytes(rest));
        let fields = [header.page_index.packed(), header.next_seq.packed(), header.count.packed()].concat();
        let len = (PAGE_HEADER + n * ENTRY).saturating_add_signed(beside);
        written(list, "pen", &fields, len, &entries, |out| tables::encode_page(out, &header, &entries));
    }
}

fn page_line(list: &mut List, page: &Page) {
    let expects = [page.page_index.packed(), page.max_entries.packed()].concat();
    let answer = tables::decode_page(&page.bytes, page.page_index, page.max_entries);
    line(list, "pde", &[&expects, &page.bytes], answer, Value::packed);
}

// ---- entries

fn entries(list: &mut List) {
    for edge in EDGES {
        let mut case = accepted(&mut list.rng);
        edge(&mut case);
        checked(list, &case);
    }
    for fault in entry_faults::FAULTS {
        let mut case = accepted(&mut list.rng);
        (fault.make)(&mut case, &mut list.rng);
        checked(list, &case);
        if [32, 33, 35].contains(&fault.refusal) {
            named(list, &tables::written_entry(&case.entry));
        }
        if [13, 32, 37].contains(&fault.refusal) {
            reserved(list, &case.limits, &tables::written_entry(&case.entry));
        }
    }
    for len in [0, ENTRY - 1, ENTRY, ENTRY + 1] {
        let entry = any_entry(&mut list.rng);
        written(list, "ewr", &packed_entry(&entry), len, &[], |out| tables::write_entry(out, &entry));
        let mut bytes = list.random_bytes(len);
        line(list, "ere", &[&bytes], tables::read_entry(&bytes), |(numbers, name)| {
            [numbers.packed(), name.packed()].concat()
        });
        let case = accepted(&mut list.rng);
        bytes = tables::written_entry(&case.entry).to_vec();
        bytes.resize(len, FILL);
        named(list, &bytes);
        reserved(list, &case.limits, &bytes);
        let limits = packed_limits(&case.limits);
        line(
            list,
            "raw",
            &[&limits, &bytes],
            tables::entry_to_raw(&bytes, &case.limits, Names::Printable),
            Value::packed,
        );
    }
}

fn checked(list: &mut List, case: &Case) {
    let bytes = tables::written_entry(&case.entry);
    let answer = tables::check_entry(&bytes, &case.limits, Names::Printable);
    line(list, "ech", &[&packed_limits(&case.limits), &bytes], answer, |(numbers, name)| {
        [numbers.packed(), packed_name(name)].concat()
    });
}

fn named(list: &mut List, bytes: &[u8]) {
    line(list, "ena", &[bytes], tables::entry_name(bytes, Names::Printable), packed_name);
    line(list, "enk", &[bytes], tables::entry_name_and_kind(bytes, Names::Printable), |(kind, name)| {
        [vec![kind], packed_name(name)].concat()
    });
}

fn reserved(list: &mut List, limits: &Limits, bytes: &[u8]) {
    let answer = tables::reserved_span(bytes, limits);
    line(list, "rsp", &[&packed_limits(limits), bytes], answer, Value::packed);
}

fn packed_limits(limits: &Limits) -> Vec<u8> {
    [limits.log2_block.packed(), limits.table_end.packed(), limits.file_len.packed(), limits.page_meta_seq.packed()]
        .concat()
}

fn packed_entry(entry: &Entry) -> Vec<u8> {
    [
        entry.seq.packed(),
        vec![entry.kind, entry.state, entry.flags, entry.compat_flags],
        entry.name.packed(),
        entry.tag.packed(),
        entry.extent_count.packed(),
        entry.header_a.packed(),
        entry.header_b.packed(),
        entry.data_size.packed(),
        entry.capacity.packed(),
        entry.span_start.packed(),
        entry.span_end.packed(),
        entry.footprint_seq.packed(),
    ]
    .concat()
}
