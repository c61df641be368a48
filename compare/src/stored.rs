//! Numbers stored in bytes, little-endian, as a record or an entry has them.

use crate::rng::Rng;
use std::ops::Range;

/// The number in a field of at most 8 bytes; 0 where the bytes end before it.
pub fn get(bytes: &[u8], field: Range<usize>) -> u64 {
    let mut number = [0; 8];
    if let Some(stored) = bytes.get(field) {
        number[..stored.len()].copy_from_slice(stored);
    }
    u64::from_le_bytes(number)
}

/// Stores a number in a field of at most 8 bytes; nothing where the bytes end before it.
pub fn set(bytes: &mut [u8], field: Range<usize>, value: u64) {
    let width = field.len();
    if let Some(stored) = bytes.get_mut(field) {
        stored.copy_from_slice(&value.to_le_bytes()[..width]);
    }
}

/// Changes one bit; nothing where the bytes end before it.
pub fn flip(bytes: &mut [u8], bit: usize) {
    if let Some(byte) = bytes.get_mut(bit / 8) {
        *byte ^= 1 << (bit % 8);
    }
}

/// Changes one bit of a field.
pub fn flip_in(rng: &mut Rng, bytes: &mut [u8], field: Range<usize>) {
    let bit = 8 * field.start + rng.below(8 * field.len());
    flip(bytes, bit);
}
