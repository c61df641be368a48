//! How a write may be cut: what of it reached its slot.

use crate::rng::Rng;
use crate::sample::{HEADER, HEADER_CRC, MAGIC};
use std::fmt;

/// The bytes of a sector, aligned in its slot.
pub const SECTOR: usize = 512;

/// Of so many sectors every set is tried.
const FEW_SECTORS: usize = 8;
/// Of more so many random ones, beside the plainest.
const RANDOM_SETS: usize = 64;

/// The order in which a medium writes.
#[derive(Clone, Copy, PartialEq)]
pub enum Medium {
    /// Byte after byte.
    Ascending,
    /// Sectors, each as a whole, in no fixed order.
    Sectors,
}

/// What of a write reached its slot before the power was cut.
#[derive(Clone, Copy)]
pub enum Tear {
    /// So many bytes from the first on.
    Ascending(usize),
    /// A set of sectors, a bit each, the lowest for the first one.
    Sectors(u128),
}

impl Medium {
    /// The size of a store's slots: a small one has cuts enough after its bytes, and few by its sectors.
    pub fn log2(self, rng: &mut Rng) -> u8 {
        match self {
            Self::Ascending => match rng.below(64) {
                0 => 12,
                1..=6 => 10,
                _ => 9,
            },
            Self::Sectors => rng.pick(&[9, 10, 10, 10, 11, 11, 11, 11, 12, 12, 12, 13, 13, 13, 14, 14, 15, 16]),
        }
    }

    /// Which of so many pairs is written. The record of pair 0 lies in one sector, so by sectors most writes go to pages.
    pub fn pair(self, rng: &mut Rng, pairs: usize) -> usize {
        let volume = match self {
            Self::Ascending => 2,
            Self::Sectors => 8,
        };
        if rng.one_in(volume) {
            0
        } else {
            rng.below(pairs)
        }
    }

    /// The cuts of a write of so many bytes.
    pub fn tears(self, rng: &mut Rng, size: usize) -> Vec<Tear> {
        match self {
            Self::Ascending => [0].into_iter().chain(MAGIC.end..=size).map(Tear::Ascending).collect(),
            Self::Sectors => sets(rng, size / SECTOR).into_iter().map(Tear::Sectors).collect(),
        }
    }
}

impl Tear {
    /// After the first byte of the header's checksum.
    pub const IN_CHECKSUM: Self = Self::Ascending(HEADER_CRC.start + 1);

    /// Any cut of a write of `size` bytes whose record ends at `end`, often one where something changes. Of one sector
    /// there is little to cut but bytes.
    pub fn random(rng: &mut Rng, size: usize, end: usize) -> Self {
        let sectors = size / SECTOR;
        if rng.one_in(if sectors == 1 { 8 } else { 2 }) {
            Self::Sectors(some_sectors(rng, sectors))
        } else {
            Self::Ascending(some_bytes(rng, size, end))
        }
    }

    /// Any cut, now and then one in the magic.
    pub fn anywhere(rng: &mut Rng, size: usize, end: usize) -> Self {
        if rng.one_in(4) {
            Self::Ascending(1 + rng.below(MAGIC.end - 1))
        } else {
            Self::random(rng, size, end)
        }
    }

    /// The set of all sectors of so many bytes.
    pub fn all_sectors(size: usize) -> u128 {
        all(size / SECTOR)
    }

    /// The slot that is left of the new bytes and the old ones.
    pub fn left(self, new: &[u8], old: &[u8]) -> Vec<u8> {
        match self {
            Self::Ascending(written) => [&new[..written], &old[written..]].concat(),
            Self::Sectors(set) => {
                let both = new.chunks(SECTOR).zip(old.chunks(SECTOR)).enumerate();
                both.map(|(at, (new, old))| if set >> at & 1 == 1 { new } else { old }).collect::<Vec<_>>().concat()
            }
        }
    }

    /// Whether all bytes before `end` reached the slot.
    pub fn reached(self, end: usize) -> bool {
        match self {
            Self::Ascending(written) => written >= end,
            Self::Sectors(set) => {
                let needed = all(end.div_ceil(SECTOR));
                set & needed == needed
            }
        }
    }
}

impl fmt::Display for Tear {
    fn fmt(&self, f: &mut fmt::Formatter<'_>) -> fmt::Result {
        match self {
            Self::Ascending(written) => write!(f, "after {written} bytes"),
            Self::Sectors(set) => write!(f, "sectors {set:#x}, a bit each"),
        }
    }
}

/// All of so many sectors, at least one.
fn all(sectors: usize) -> u128 {
    u128::MAX >> (u128::BITS as usize - sectors)
}

/// Sets of so many sectors: all of them, or none, all, each alone, all but each, and random ones.
fn sets(rng: &mut Rng, sectors: usize) -> Vec<u128> {
    let all = all(sectors);
    if sectors <= FEW_SECTORS {
        return (0..=all).collect();
    }
    let mut sets = vec![0, all];
    sets.extend((0..sectors).flat_map(|at| [1 << at, all ^ 1 << at]));
    sets.extend((0..RANDOM_SETS).map(|_| random_set(rng, sectors)));
    sets
}

/// With one to seven eighths of the sectors.
fn random_set(rng: &mut Rng, sectors: usize) -> u128 {
    let eighths = 1 + rng.below(7);
    (0..sectors).filter(|_| rng.below(8) < eighths).map(|at| 1 << at).sum()
}

/// None, all, one, all but one, or any of so many sectors.
fn some_sectors(rng: &mut Rng, sectors: usize) -> u128 {
    let all = all(sectors);
    match rng.below(8) {
        0 => 0,
        1 => all,
        2..=3 => 1 << rng.below(sectors),
        4..=5 => all ^ 1 << rng.below(sectors),
        _ => random_set(rng, sectors),
    }
}

/// None or at least the magic: most often about the checksum, the header's end or that of the record.
fn some_bytes(rng: &mut Rng, size: usize, end: usize) -> usize {
    let near = match rng.below(16) {
        0 => return 0,
        1 => size,
        2..=4 => HEADER_CRC.start + rng.below(2),
        5..=6 => HEADER_CRC.start + rng.below(9),
        7..=8 => HEADER / 2 + rng.below(HEADER / 2),
        9..=10 => HEADER - 4 + rng.below(9),
        11..=13 => end - 4 + rng.below(9),
        _ => rng.below(size),
    };
    near.clamp(MAGIC.end, size)
}
