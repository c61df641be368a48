//! Sound stores and correct writes (docs/FORMAT.md, "The sound store and the cut"), made by what is tried.

use crate::cut_records::{clean_mark, Kind};
use crate::ffi::{Identity, Version};
use crate::ffi_pair::PairIdentity;
use crate::frames::{random_operators, OPERATORS};
use crate::implementation::Implementation;
use crate::page_sample::{ENTRY, PAGE_HEADER};
use crate::passing::stored_payload;
use crate::rng::Rng;
use crate::sample::{HEADER, YES};
use crate::tear::Medium;

pub const MOST_OF_SMALL: usize = 8;

/// One in so many stores has its clean mark set.
const MARKED_SHARE: usize = 4;

/// A pair: its slots as they are stored, and what is known of the slot that wins.
pub struct Pair {
    pub kind: Kind,
    pub operator: u8,
    pub at: PairIdentity,
    pub slots: [Vec<u8>; 2],
    /// 0 for A, 1 for B.
    pub winner: usize,
    /// B was never written.
    pub blank: bool,
    pub generation: u64,
    pub number: u64,
    pub own: u32,
    pub previous: u32,
    /// The last written record.
    pub record: Vec<u8>,
}

/// A write of the slot that is not its pair's winner.
pub struct Write {
    pub pair: usize,
    /// 0 for A, 1 for B.
    pub slot: usize,
    pub record: Vec<u8>,
    /// The store's clean mark before the write.
    pub marked: bool,
    /// The store's clean mark once the new record stands whole.
    pub mark: bool,
    /// The header has the checksum that the winner has as its previous one.
    pub same_checksum: bool,
    /// Its number is above those of all operators.
    pub above_all: bool,
    pub new: Vec<u8>,
}

/// Its clean mark is set or not.
pub fn random_store(rng: &mut Rng, tried: &dyn Implementation, medium: Medium) -> Vec<Pair> {
    let pairs = 1 + rng.below(MOST_OF_SMALL);
    let mark = rng.one_in(MARKED_SHARE);
    store_of(rng, tried, pairs, mark, |rng| medium.log2(rng))
}

/// A sound store of so many pairs with this clean mark; `log2` draws the size of each pair's slots.
pub fn store_of(
    rng: &mut Rng,
    tried: &dyn Implementation,
    pairs: usize,
    mark: bool,
    log2: impl Fn(&mut Rng) -> u8,
) -> Vec<Pair> {
    let volume = (rng.any(), rng.any());
    let operators = random_operators(rng, pairs);
    let numbers = random_numbers(rng, &operators);
    let numbered = operators.into_iter().zip(numbers).enumerate();
    numbered.map(|(at, numbered)| random_pair(rng, tried, &log2, (at, mark), volume, numbered)).collect()
}

/// Two rising numbers for each pair; the highest has a number above it. As a store hands them out to each operator, anything,
/// or a few that many pairs share.
fn random_numbers(rng: &mut Rng, operators: &[u8]) -> Vec<[u64; 2]> {
    match rng.below(4) {
        0 => operators.iter().map(|_| rising(rng, u64::MAX - 1)).collect(),
        1 => operators.iter().map(|_| rising(rng, 4)).collect(),
        _ => {
            let mut numbers = vec![[0; 2]; operators.len()];
            for operator in 0..OPERATORS as u8 {
                let own: Vec<usize> = (0..operators.len()).filter(|at| operators[*at] == operator).collect();
                for (at, two) in own.iter().zip(handed_out(rng, own.len())) {
                    numbers[*at] = two;
                }
            }
            numbers
        }
    }
}

/// The numbers of all writes to so many pairs, two to each.
fn handed_out(rng: &mut Rng, pairs: usize) -> Vec<[u64; 2]> {
    let mut numbers: Vec<u64> = (0..2 * pairs as u64).collect();
    rng.shuffle(&mut numbers);
    let most = rng.pick(&[1, 1000, u64::MAX - 2 * pairs as u64]);
    let lowest = rng.between(1, most);
    let two = numbers.chunks_exact(2).map(|two| [two[0].min(two[1]), two[0].max(two[1])]);
    two.map(|two| two.map(|number| lowest + number)).collect()
}

fn rising(rng: &mut Rng, highest: u64) -> [u64; 2] {
    let older = rng.between(1, highest - 1);
    [older, rng.between(older + 1, highest)]
}

/// Pair `at` of a store with this clean mark: a first A beside a blank B, or an older and a newer slot.
fn random_pair(
    rng: &mut Rng,
    tried: &dyn Implementation,
    log2: &impl Fn(&mut Rng) -> u8,
    (at, mark): (usize, bool),
    volume: (u64, u64),
    (operator, [older, newer]): (u8, [u64; 2]),
) -> Pair {
    let log2_slot_size = log2(rng);
    let fit = fitting_entries(1 << log2_slot_size);
    let kind = if at == 0 { Kind::Volume } else { Kind::page(rng, at as u32 - 1, fit) };
    let at = PairIdentity {
        volume0: volume.0,
        volume1: volume.1,
        object_id: rng.any(),
        offsets: [rng.any(), rng.any()],
        log2_slot_size,
        format_major: 2,
        numbered: rng.pick(&YES),
    };
    let blank = rng.one_in(3);
    let first_mark = if blank { mark } else { rng.one_in(2) };
    let record = kind.record(rng, fit, None, first_mark);
    let generation = match rng.below(4) {
        _ if blank => 1,
        0 => rng.between(1, u64::MAX - 2),
        _ => 1 + rng.below(4) as u64,
    };
    let slot = if blank { 0 } else { rng.below(2) };
    let previous = rng.any() as u32 >> (u32::BITS - tried.checksum_bits());
    let (first, own) = tried.encode(&at.slot(slot as u32), &version(rng, generation, older, previous), &record);
    let mut slots = [vec![0; first.len()], vec![0; first.len()]];
    slots[slot] = first;
    let mut pair =
        Pair { kind, operator, at, slots, winner: slot, blank, generation, number: older, own, previous, record };
    if !blank {
        pair.record = kind.record(rng, fit, Some(&pair.record), mark);
        pair.winner = 1 - slot;
        pair.generation += 1;
        pair.number = newer;
        pair.previous = pair.own;
        let version = version(rng, pair.generation, newer, pair.previous);
        (pair.slots[pair.winner], pair.own) = tried.encode(&at.slot(pair.winner as u32), &version, &pair.record);
    }
    pair
}

/// How many entries a page has room for in a slot of that size.
pub fn fitting_entries(size: usize) -> usize {
    (size - HEADER - PAGE_HEADER) / ENTRY
}

fn version(rng: &mut Rng, generation: u64, number: u64, previous: u32) -> Version {
    Version {
        generation,
        owner_generation: rng.any(),
        prev_header_crc32c: previous,
        meta_seq: number,
        compat_flags: rng.any() as u32,
    }
}

/// A correct write of any pair, of pair 0 where the clean mark is set. What counts for nothing in the slot below it is
/// filled here: bytes after a blank header or after an older payload, anything or what is about to be written there.
pub fn random_write(rng: &mut Rng, tried: &dyn Implementation, medium: Medium, store: &mut [Pair]) -> Write {
    let marked = clean_mark(&store[0].record);
    let written = if marked { 0 } else { medium.pair(rng, store.len()) };
    let own = store.iter().filter(|pair| pair.operator == store[written].operator);
    let highest = own.map(|pair| pair.number).max().unwrap_or(0);
    let above_all = store.iter().all(|pair| pair.number <= highest);
    let pair = &mut store[written];
    let slot = 1 - pair.winner;
    let fit = fitting_entries(pair.slots[slot].len());
    let mark = rng.one_in(2);
    let record = pair.kind.record(rng, fit, Some(&pair.record), mark);
    let mark = if written == 0 { clean_mark(&record) } else { marked };
    let mut version = version(rng, pair.generation + 1, highest + 1, pair.own);
    let at = pair.at.slot(slot as u32);
    let same_checksum = rng.one_in(8);
    if same_checksum {
        version.compat_flags = flags_for(tried, &at, &version, &record, (pair.previous, tried.checksum_bits()));
    }
    let (new, _) = tried.encode(&at, &version, &record);
    let counts = stored_payload(&pair.slots[slot]).end;
    let below = &mut pair.slots[slot][counts..];
    match rng.below(4) {
        0 => rng.fill(below),
        1 => below.copy_from_slice(&new[counts..]),
        _ => (),
    }
    Write { pair: written, slot, record, marked, mark, same_checksum, above_all, new }
}

/// The compatible flags with which a header has the lowest `bits` of the checksum `wanted`. The checksum is a sum without
/// carry of what each bit of the flags adds, and four bytes in a row can give it any value: elimination finds the bits.
pub fn flags_for(
    tried: &dyn Implementation,
    at: &Identity,
    version: &Version,
    record: &[u8],
    (wanted, bits): (u32, u32),
) -> u32 {
    let checksum = |flags| tried.encode(at, &Version { compat_flags: flags, ..*version }, record).1;
    let without = checksum(0);
    let mut rows: Vec<(u32, u32)> = (0..32).map(|bit| (checksum(1 << bit) ^ without, 1 << bit)).collect();
    let mut wanted = (wanted ^ without, 0);
    for bit in 0..bits {
        let has = |row: &(u32, u32)| row.0 >> bit & 1 == 1;
        let at = rows.iter().position(has).expect("every bit of the checksum depends on the flags");
        let pivot = rows.swap_remove(at);
        for row in rows.iter_mut().chain([&mut wanted]).filter(|row| has(row)) {
            *row = (row.0 ^ pivot.0, row.1 ^ pivot.1);
        }
    }
    wanted.1
}
