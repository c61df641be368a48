//! Table pages: acceptable ones, and what can be wrong with them or with what a reader expects of them.

use crate::ffi_table::Header;
use crate::places::Fault;
use crate::rng::Rng;
use crate::stored::{flip_in, get, set};
use crate::table_reference as reference;
use std::ops::Range;

pub const PAGE_HEADER: usize = 24;
pub const ENTRY: usize = 96;

pub const INDEX: Range<usize> = 0..4;
pub const NEXT_SEQ: Range<usize> = 4..8;
pub const COUNT: Range<usize> = 8..10;
pub const ZERO_10: Range<usize> = 10..24;

/// Fields of an entry.
const SEQ: Range<usize> = 0..4;
const ZERO_38: Range<usize> = 38..39;
const ZERO_39: Range<usize> = 39..40;

/// The bytes of a page, with what they are read with.
#[derive(Clone)]
pub struct Page {
    pub bytes: Vec<u8>,
    pub page_index: u32,
    pub max_entries: u16,
}

pub const FAULTS: &[Fault<Page>] = &[
    Fault::new("below 24 bytes", 11, |page, rng| page.bytes.truncate(rng.below(PAGE_HEADER))),
    Fault::new("zeros at 10", 22, |page, rng| flip_in(rng, &mut page.bytes, ZERO_10)),
    Fault::new("index", 29, |page, rng| flip_in(rng, &mut page.bytes, INDEX)),
    Fault::new("expected index", 29, |page, rng| page.page_index ^= 1 << rng.below(32)),
    Fault::new("above the maximum", 30, |page, rng| page.max_entries = below_count(page, rng)),
    Fault::new("above next_seq", 30, above_next_seq),
    Fault::new("a byte less", 11, |page, _| shorten(page, 1)),
    Fault::new("a byte more", 11, |page, _| page.bytes.push(0)),
    Fault::new("an entry less", 11, |page, _| shorten(page, ENTRY)),
    Fault::new("an entry more", 11, |page, _| page.bytes.extend([0; ENTRY])),
    Fault::new("a lower count", 11, |page, rng| set_count(page, below_count(page, rng))),
    Fault::new("first seq", 31, |page, rng| high_seq(page, rng, first)),
    Fault::new("middle seq", 31, |page, rng| high_seq(page, rng, middle)),
    Fault::new("last seq", 31, |page, rng| high_seq(page, rng, last)),
    Fault::new("zero at 38", 22, |page, rng| flip_zero(page, rng, ZERO_38)),
    Fault::new("zero at 39", 22, |page, rng| flip_zero(page, rng, ZERO_39)),
    Fault::new("first two alike", 12, |page, _| copy_seq(page, first, |_| 1)),
    Fault::new("first and last alike", 12, |page, _| copy_seq(page, first, last)),
    Fault::new("middle two alike", 12, |page, _| copy_seq(page, middle, |n| middle(n) + 1)),
    Fault::new("last two alike", 12, |page, _| copy_seq(page, |n| n.saturating_sub(2), last)),
];

/// The place of an entry among `n`.
type At = fn(usize) -> usize;

fn first(_: usize) -> usize {
    0
}

fn middle(n: usize) -> usize {
    n.saturating_sub(1) / 2
}

fn last(n: usize) -> usize {
    n.saturating_sub(1)
}

impl Page {
    /// How many whole entries there are.
    pub fn entries(&self) -> usize {
        self.bytes.len().saturating_sub(PAGE_HEADER) / ENTRY
    }

    pub fn seq(&self, entry: usize) -> u64 {
        get(&self.bytes, in_entry(entry, SEQ))
    }

    pub fn set_seq(&mut self, entry: usize, seq: u64) {
        set(&mut self.bytes, in_entry(entry, SEQ), seq);
    }

    pub fn set_zeros(&mut self, entry: usize, value: u64) {
        set(&mut self.bytes, in_entry(entry, ZERO_38.start..ZERO_39.end), value);
    }
}

fn in_entry(entry: usize, field: Range<usize>) -> Range<usize> {
    let start = PAGE_HEADER + ENTRY * entry;
    start + field.start..start + field.end
}

fn below_count(page: &Page, rng: &mut Rng) -> u16 {
    let count = get(&page.bytes, COUNT);
    rng.between(0, count.saturating_sub(1)) as u16
}

fn set_count(page: &mut Page, count: u16) {
    set(&mut page.bytes, COUNT, count.into());
}

fn above_next_seq(page: &mut Page, rng: &mut Rng) {
    let next_seq = below_count(page, rng);
    set(&mut page.bytes, NEXT_SEQ, next_seq.into());
}

fn shorten(page: &mut Page, bytes: usize) {
    page.bytes.truncate(page.bytes.len().saturating_sub(bytes));
}

fn high_seq(page: &mut Page, rng: &mut Rng, at: At) {
    let seq = rng.between(get(&page.bytes, NEXT_SEQ), u32::MAX.into());
    page.set_seq(at(page.entries()), seq);
}

fn flip_zero(page: &mut Page, rng: &mut Rng, field: Range<usize>) {
    let entry = rng.between(0, last(page.entries()) as u64) as usize;
    flip_in(rng, &mut page.bytes, in_entry(entry, field));
}

fn copy_seq(page: &mut Page, from: At, to: At) {
    let n = page.entries();
    page.set_seq(to(n), page.seq(from(n)));
}

/// Entries with distinct numbers below `next_seq`, and anything else but the zeros at 38.
pub fn random_entries(rng: &mut Rng, n: usize, next_seq: u32) -> Vec<u8> {
    let mut entries = vec![0; n * ENTRY];
    rng.fill(&mut entries);
    let stride = (u64::from(next_seq) / n.max(1) as u64).max(1);
    let stride = rng.between(1, stride);
    let lowest = rng.between(0, u64::from(next_seq).saturating_sub(1 + n.saturating_sub(1) as u64 * stride));
    let mut seqs: Vec<u64> = (0..n as u64).map(|i| lowest + i * stride).collect();
    for i in 1..n {
        seqs.swap(i, rng.below(i + 1));
    }
    for (entry, seq) in entries.chunks_mut(ENTRY).zip(seqs) {
        set(entry, SEQ, seq);
        set(entry, ZERO_38.start..ZERO_39.end, 0);
    }
    entries
}

/// A page of `n` entries that decodes.
pub fn written_page(rng: &mut Rng, n: usize) -> Page {
    let next_seq = match rng.below(4) {
        0 => n as u64,
        1 => rng.between(n as u64, 2 * n as u64 + 9),
        _ => rng.between(n as u64, u32::MAX.into()),
    };
    let header = Header { page_index: rng.any() as u32, next_seq: next_seq as u32, count: n as u16 };
    let entries = random_entries(rng, n, header.next_seq);
    let mut bytes = vec![0; PAGE_HEADER + entries.len()];
    reference::encode_page(&mut bytes, &header, &entries).expect("the reference refuses to write a page");
    let max_entries = rng.between(n as u64, 65_535) as u16;
    Page { bytes, page_index: header.page_index, max_entries }
}

/// Few for the most part, sometimes as many as a page has, seldom the most.
pub fn random_count(rng: &mut Rng) -> usize {
    match rng.below(1024) {
        0 => 681,
        1..=4 => rng.pick(&[41, 42, 83, 169]),
        5..=99 => rng.below(24),
        _ => rng.below(6),
    }
}
