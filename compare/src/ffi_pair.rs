//! The function of include/store_io.h for the payload of a pair's winner, as in ffi.rs.

use crate::ffi::{address, Bytes, Identity};
use std::cell::Cell;

extern "C" {
    fn sio_winner_payload(
        a: *const u8,
        a_len: usize,
        b: *const u8,
        b_len: usize,
        volume0: u64,
        volume1: u64,
        object_id: u64,
        a_offset: u64,
        b_offset: u64,
        log2_slot_size: u8,
        format_major: u16,
        numbered: u32,
        values_a: *mut [u64; 9],
        values_b: *mut [u64; 9],
        report: *mut [u8; 7],
        start: *mut usize,
        payload_len: *mut usize,
    ) -> u32;
}

/// How the slots of a pair are read: what they share, and the offset of each.
#[derive(Clone, Copy)]
pub struct PairIdentity {
    pub volume0: u64,
    pub volume1: u64,
    pub object_id: u64,
    pub offsets: [u64; 2],
    pub log2_slot_size: u8,
    pub format_major: u16,
    pub numbered: u32,
}

impl PairIdentity {
    /// The identity of one slot: index 0 for A, anything else for B.
    pub fn slot(&self, index: u32) -> Identity {
        Identity {
            volume0: self.volume0,
            volume1: self.volume1,
            object_id: self.object_id,
            slot_offset: self.offsets[usize::from(index != 0)],
            index,
            log2_slot_size: self.log2_slot_size,
            format_major: self.format_major,
        }
    }
}

/// What the winner's payload is answered in, but for the winner.
pub struct Answered<'a> {
    pub values_a: &'a Cell<[u64; 9]>,
    pub values_b: &'a Cell<[u64; 9]>,
    pub report: &'a Cell<[u8; 7]>,
    pub start: &'a Cell<usize>,
    pub payload_len: &'a Cell<usize>,
}

// SAFETY: as in ffi.rs.

pub fn winner_payload(a: &Bytes, b: &Bytes, at: &PairIdentity, answered: &Answered) -> u32 {
    unsafe {
        sio_winner_payload(
            address(a),
            a.len(),
            address(b),
            b.len(),
            at.volume0,
            at.volume1,
            at.object_id,
            at.offsets[0],
            at.offsets[1],
            at.log2_slot_size,
            at.format_major,
            at.numbered,
            answered.values_a.as_ptr(),
            answered.values_b.as_ptr(),
            answered.report.as_ptr(),
            answered.start.as_ptr(),
            answered.payload_len.as_ptr(),
        )
    }
}
