//! The reference's checksum by its portable update, whatever the processor has.

/// The reference's slot.rs over that, made by compare/build.
#[path = "../../target/compare/portable/slot.rs"]
#[allow(dead_code)]
#[rustfmt::skip]
pub mod slot;
/// And its pair.rs.
#[path = "../../target/compare/portable/pair.rs"]
#[allow(dead_code)]
#[rustfmt::skip]
pub mod pair;

use crate::crc32c::portable;

pub fn crc32c(bytes: &[u8]) -> u32 {
    crc32c_append(0, bytes)
}

pub fn crc32c_append(crc: u32, bytes: &[u8]) -> u32 {
    !portable::update(!crc, bytes)
}
