//! The functions of include/store_io.h for the next writes, as in ffi.rs.

use crate::ffi::{address, Bytes};
use crate::ffi_pair::PairIdentity;
use std::cell::Cell;

extern "C" {
    fn sio_next_number(frames: *const u8, frames_len: usize, operator_id: u8, number: *mut u64) -> u32;
    fn sio_heal_number(frames: *const u8, frames_len: usize, operator_id: u8, number: *mut u64) -> u32;
    fn sio_plan_write(frames: *const u8, frames_len: usize, pair: usize, plan: *mut [u64; 4]) -> u32;
    fn sio_plan_heal(frames: *const u8, frames_len: usize, clean: u8, plan: *mut [u64; 5]) -> u32;
    fn sio_next_write(
        frames: *const u8,
        frames_len: usize,
        pair: usize,
        volume0: u64,
        volume1: u64,
        object_id: u64,
        a_offset: u64,
        b_offset: u64,
        log2_slot_size: u8,
        owner_generation: u64,
        compat_flags: u32,
        payload: *const u8,
        payload_len: usize,
        slot: *mut u8,
        slot_len: usize,
        plan: *mut [u64; 4],
        header_crc32c: *mut u32,
    ) -> u32;
}

/// What is written into the slot besides the plan and the identity; format and numbered of the identity do not count.
#[derive(Clone, Copy)]
pub struct Written {
    pub owner_generation: u64,
    pub compat_flags: u32,
}

// SAFETY: as in ffi.rs.

pub fn next_number(frames: &Bytes, operator: u8, number: &Cell<u64>) -> u32 {
    unsafe { sio_next_number(address(frames), frames.len(), operator, number.as_ptr()) }
}

pub fn heal_number(frames: &Bytes, operator: u8, number: &Cell<u64>) -> u32 {
    unsafe { sio_heal_number(address(frames), frames.len(), operator, number.as_ptr()) }
}

pub fn plan_write(frames: &Bytes, pair: usize, plan: &Cell<[u64; 4]>) -> u32 {
    unsafe { sio_plan_write(address(frames), frames.len(), pair, plan.as_ptr()) }
}

pub fn plan_heal(frames: &Bytes, clean: u8, plan: &Cell<[u64; 5]>) -> u32 {
    unsafe { sio_plan_heal(address(frames), frames.len(), clean, plan.as_ptr()) }
}

pub fn next_write(
    (frames, pair): (&Bytes, usize),
    at: &PairIdentity,
    written: Written,
    payload: &Bytes,
    slot: &Bytes,
    plan: &Cell<[u64; 4]>,
    header_crc32c: &Cell<u32>,
) -> u32 {
    unsafe {
        sio_next_write(
            address(frames),
            frames.len(),
            pair,
            at.volume0,
            at.volume1,
            at.object_id,
            at.offsets[0],
            at.offsets[1],
            at.log2_slot_size,
            written.owner_generation,
            written.compat_flags,
            address(payload),
            payload.len(),
            address(slot),
            slot.len(),
            plan.as_ptr(),
            header_crc32c.as_ptr(),
        )
    }
}
