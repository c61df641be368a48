//! Records of a sound store, made and read by the library: the volume record of pair 0 and the pages of the others.

use crate::ffi::Bytes;
use crate::ffi_table::{self, Header};
use crate::ffi_volume::{self, Base, Volume};
use crate::page_sample::{random_entries, ENTRY, NEXT_SEQ, PAGE_HEADER};
use crate::rng::Rng;
use crate::stored::get;
use crate::volume_sample::{random_volume, CLEAN, RECORD};
use std::cell::Cell;

/// What the records of a pair are, and what they are read with.
#[derive(Clone, Copy)]
pub enum Kind {
    Volume,
    Page { index: u32, max_entries: u16 },
}

impl Kind {
    /// A page's index and maximum, for slots with room for `fit` entries.
    pub fn page(rng: &mut Rng, index: u32, fit: usize) -> Self {
        let index = if rng.one_in(4) { rng.any() as u32 } else { index };
        let max_entries = match rng.below(4) {
            0 => rng.below(fit + 1) as u16,
            1 => u16::MAX,
            _ => fit as u16,
        };
        Self::Page { index, max_entries }
    }

    /// A record that the decoder of this kind accepts, for slots with room for `fit` entries: anything, or `before` with a
    /// few changes. The clean mark is that of a volume record.
    pub fn record(&self, rng: &mut Rng, fit: usize, before: Option<&[u8]>, clean: bool) -> Vec<u8> {
        let before = before.filter(|_| !rng.one_in(3));
        match (*self, before) {
            (Self::Volume, before) => {
                let volume = match before {
                    Some(before) => later_volume(rng, before),
                    None => new_volume(rng),
                };
                encode_volume(&Volume { clean_close: clean.into(), ..volume })
            }
            (Self::Page { index, max_entries }, before) => {
                let most = fit.min(max_entries.into());
                let (next_seq, entries) = match before {
                    Some(before) => later_entries(rng, before, most),
                    None => new_entries(rng, most),
                };
                encode_page(&Header { page_index: index, next_seq, count: (entries.len() / ENTRY) as u16 }, &entries)
            }
        }
    }

    /// What the decoder of this kind answers: 0 where it accepts the record.
    pub fn decode(&self, record: &Bytes) -> u32 {
        match *self {
            Self::Volume => ffi_volume::volume_decode(record, &Cell::new([0; 11])),
            Self::Page { index, max_entries } => ffi_table::decode_page(record, index, max_entries, &Cell::new([0; 5])),
        }
    }
}

/// The clean mark of a volume record.
pub fn clean_mark(record: &[u8]) -> bool {
    get(record, CLEAN) == 1
}

pub fn cells(bytes: &[u8]) -> Vec<Cell<u8>> {
    bytes.iter().copied().map(Cell::new).collect()
}

pub fn bytes(cells: &Bytes) -> Vec<u8> {
    cells.iter().map(Cell::get).collect()
}

/// The library must not refuse what a sound store is made of.
pub fn done(function: &str, refusal: u32) {
    assert!(refusal == 0, "{function} answers {refusal} to what it must take");
}

fn new_volume(rng: &mut Rng) -> Volume {
    let volume = random_volume(rng);
    let entries_per_page = ffi_volume::entries_per_page(volume.base.log2_table_slot_size);
    Volume { entries_per_page, ..volume }
}

/// The same volume, now and then with another owner or creation time.
fn later_volume(rng: &mut Rng, before: &[u8]) -> Volume {
    let found = Cell::new([0; 11]);
    done("sio_volume_decode", ffi_volume::volume_decode(&cells(before), &found));
    let [block, table, device, mut owner, offset, mut created, features, pages, entries, _, flags] = found.get();
    match rng.below(4) {
        0 => owner = rng.any(),
        1 => created ^= 1 << rng.below(64),
        _ => (),
    }
    Volume {
        base: Base {
            log2_block_size: block as u8,
            log2_table_slot_size: table as u8,
            device_index: device as u16,
            owner_generation: owner,
            table_offset: offset,
            created_unix_s: created,
            features,
        },
        table_pages: pages as u32,
        entries_per_page: entries as u16,
        clean_close: 0,
        flags: flags as u32,
    }
}

fn encode_volume(volume: &Volume) -> Vec<u8> {
    let record = cells(&[0; RECORD]);
    let written = Cell::new(0);
    done("sio_volume_encode", ffi_volume::volume_encode(&record, volume, &written));
    assert!(written.get() == RECORD, "sio_volume_encode wrote {} bytes", written.get());
    bytes(&record)
}

/// The next sequence number and at most `most` entries.
fn new_entries(rng: &mut Rng, most: usize) -> (u32, Vec<u8>) {
    let n = rng.between(0, most as u64) as usize;
    let next_seq = rng.between(n as u64, u32::MAX.into()) as u32;
    (next_seq, random_entries(rng, n, next_seq))
}

/// The same entries with one changed after its number and zeros, one less, one more, or as they are.
fn later_entries(rng: &mut Rng, before: &[u8], most: usize) -> (u32, Vec<u8>) {
    let next_seq = get(before, NEXT_SEQ) as u32;
    let mut entries = before[PAGE_HEADER..].to_vec();
    let n = entries.len() / ENTRY;
    match rng.below(4) {
        0 if n > 0 => {
            let entry = ENTRY * rng.below(n);
            let from = entry + 40 + rng.below(ENTRY - 40);
            rng.fill(&mut entries[from..entry + ENTRY]);
        }
        1 if n > 0 => entries.truncate(ENTRY * (n - 1)),
        2 if n < most && next_seq < u32::MAX => {
            let mut entry = vec![0; ENTRY];
            rng.fill(&mut entry[40..]);
            entry[..4].copy_from_slice(&next_seq.to_le_bytes());
            entries.extend(entry);
            return (next_seq + 1, entries);
        }
        _ => (),
    }
    (next_seq, entries)
}

fn encode_page(header: &Header, entries: &[u8]) -> Vec<u8> {
    let page = cells(&vec![0; PAGE_HEADER + entries.len()]);
    let written = Cell::new(0);
    done("sio_encode_page", ffi_table::encode_page(&page, header, &cells(entries), &written));
    assert!(written.get() == page.len(), "sio_encode_page wrote {} bytes", written.get());
    bytes(&page)
}
