//! The functions of include/store_io.h, each behind a safe function. That for a pair's payload is in ffi_pair.rs,
//! those for metadata are in ffi_volume.rs and ffi_table.rs.
//!
//! Buffers and numbers are lent as `Cell`s: a wrong callee may write to any of them.

use crate::frames::HALF;
use crate::judge_reference::JUDGEMENT;
use std::cell::Cell;

/// The version of the interface that is called here.
pub const VERSION: u32 = 3;

extern "C" {
    fn sio_version() -> u32;

    fn sio_crc32c(bytes: *const u8, len: usize) -> u32;
    fn sio_crc32c_append(crc: u32, bytes: *const u8, len: usize) -> u32;
    fn sio_crc32c_gap(head: *const u8, head_len: usize, zeros: usize, tail: *const u8, tail_len: usize) -> u32;

    fn sio_remaining(bytes: *const u8, len: usize, position: usize) -> usize;
    fn sio_read_u8(bytes: *const u8, len: usize, position: *mut usize, value: *mut u8) -> u32;
    fn sio_read_u16(bytes: *const u8, len: usize, position: *mut usize, value: *mut u16) -> u32;
    fn sio_read_u32(bytes: *const u8, len: usize, position: *mut usize, value: *mut u32) -> u32;
    fn sio_read_u64(bytes: *const u8, len: usize, position: *mut usize, value: *mut u64) -> u32;
    fn sio_read_bytes(bytes: *const u8, len: usize, position: *mut usize, count: usize, start: *mut usize) -> u32;
    fn sio_read_array16(bytes: *const u8, len: usize, position: *mut usize, value: *mut [u8; 16]) -> u32;
    fn sio_read_array24(bytes: *const u8, len: usize, position: *mut usize, value: *mut [u8; 24]) -> u32;
    fn sio_write_u8(bytes: *mut u8, len: usize, position: *mut usize, value: u8) -> u32;
    fn sio_write_u16(bytes: *mut u8, len: usize, position: *mut usize, value: u16) -> u32;
    fn sio_write_u32(bytes: *mut u8, len: usize, position: *mut usize, value: u32) -> u32;
    fn sio_write_u64(bytes: *mut u8, len: usize, position: *mut usize, value: u64) -> u32;
    fn sio_write_bytes(bytes: *mut u8, len: usize, position: *mut usize, src: *const u8, src_len: usize) -> u32;
    fn sio_write_zeros(bytes: *mut u8, len: usize, position: *mut usize, count: usize) -> u32;

    fn sio_encode(
        slot: *mut u8,
        len: usize,
        volume0: u64,
        volume1: u64,
        object_id: u64,
        generation: u64,
        owner_generation: u64,
        slot_offset: u64,
        index: u32,
        log2_slot_size: u8,
        prev_header_crc32c: u32,
        format_major: u16,
        meta_seq: u64,
        compat_flags: u32,
        payload: *const u8,
        payload_len: usize,
        header_crc32c: *mut u32,
    ) -> u32;
    fn sio_validate(
        slot: *const u8,
        len: usize,
        volume0: u64,
        volume1: u64,
        object_id: u64,
        slot_offset: u64,
        index: u32,
        log2_slot_size: u8,
        format_major: u16,
        numbered: u32,
        found: *mut [u64; 9],
    ) -> u32;
    fn sio_header_facts(
        slot: *const u8,
        len: usize,
        volume0: u64,
        volume1: u64,
        object_id: u64,
        slot_offset: u64,
        index: u32,
        log2_slot_size: u8,
        format_major: u16,
        numbered: u32,
        found: *mut [u64; 4],
    ) -> u32;
    fn sio_frame_slot(
        slot: *const u8,
        len: usize,
        volume0: u64,
        volume1: u64,
        object_id: u64,
        slot_offset: u64,
        index: u32,
        log2_slot_size: u8,
        format_major: u16,
        numbered: u32,
        part: *mut [u8; HALF],
    ) -> u32;

    fn sio_decide(
        a_status: u32,
        a_generation: u64,
        a_header_crc32c: u32,
        a_prev_header_crc32c: u32,
        b_status: u32,
        b_generation: u64,
        b_header_crc32c: u32,
        b_prev_header_crc32c: u32,
        report: *mut [u8; 5],
    ) -> u32;

    fn sio_judge(
        frames: *const u8,
        frames_len: usize,
        clean: u8,
        verdicts: *mut u8,
        verdicts_len: usize,
        judgement: *mut [u64; JUDGEMENT],
    ) -> u32;
}

/// A slot's identity and size, as the interface names them.
#[derive(Clone, Copy)]
pub struct Identity {
    pub volume0: u64,
    pub volume1: u64,
    pub object_id: u64,
    pub slot_offset: u64,
    pub index: u32,
    pub log2_slot_size: u8,
    pub format_major: u16,
}

/// What a slot is written with besides its identity and payload.
#[derive(Clone, Copy)]
pub struct Version {
    pub generation: u64,
    pub owner_generation: u64,
    pub prev_header_crc32c: u32,
    pub meta_seq: u64,
    pub compat_flags: u32,
}

/// One slot of a pair to decide.
#[derive(Clone, Copy)]
pub struct Side {
    pub status: u32,
    pub generation: u64,
    pub header_crc32c: u32,
    pub prev_header_crc32c: u32,
}

pub type Bytes = [Cell<u8>];

pub fn address(bytes: &Bytes) -> *mut u8 {
    bytes.as_ptr().cast::<u8>().cast_mut()
}

// SAFETY, for every call below: each pointer comes with the length of its own slice or points to a cell of its type,
// and cells may be written while they are shared.

pub fn version() -> u32 {
    unsafe { sio_version() }
}

pub fn crc32c(bytes: &Bytes) -> u32 {
    unsafe { sio_crc32c(address(bytes), bytes.len()) }
}

pub fn crc32c_append(crc: u32, bytes: &Bytes) -> u32 {
    unsafe { sio_crc32c_append(crc, address(bytes), bytes.len()) }
}

pub fn crc32c_gap(head: &Bytes, zeros: usize, tail: &Bytes) -> u32 {
    unsafe { sio_crc32c_gap(address(head), head.len(), zeros, address(tail), tail.len()) }
}

pub fn remaining(bytes: &Bytes, position: usize) -> usize {
    unsafe { sio_remaining(address(bytes), bytes.len(), position) }
}

pub fn read_u8(bytes: &Bytes, position: &Cell<usize>, value: &Cell<u8>) -> u32 {
    unsafe { sio_read_u8(address(bytes), bytes.len(), position.as_ptr(), value.as_ptr()) }
}

pub fn read_u16(bytes: &Bytes, position: &Cell<usize>, value: &Cell<u16>) -> u32 {
    unsafe { sio_read_u16(address(bytes), bytes.len(), position.as_ptr(), value.as_ptr()) }
}

pub fn read_u32(bytes: &Bytes, position: &Cell<usize>, value: &Cell<u32>) -> u32 {
    unsafe { sio_read_u32(address(bytes), bytes.len(), position.as_ptr(), value.as_ptr()) }
}

pub fn read_u64(bytes: &Bytes, position: &Cell<usize>, value: &Cell<u64>) -> u32 {
    unsafe { sio_read_u64(address(bytes), bytes.len(), position.as_ptr(), value.as_ptr()) }
}

pub fn read_bytes(bytes: &Bytes, position: &Cell<usize>, count: usize, start: &Cell<usize>) -> u32 {
    unsafe { sio_read_bytes(address(bytes), bytes.len(), position.as_ptr(), count, start.as_ptr()) }
}

pub fn read_array16(bytes: &Bytes, position: &Cell<usize>, value: &Cell<[u8; 16]>) -> u32 {
    unsafe { sio_read_array16(address(bytes), bytes.len(), position.as_ptr(), value.as_ptr()) }
}

pub fn read_array24(bytes: &Bytes, position: &Cell<usize>, value: &Cell<[u8; 24]>) -> u32 {
    unsafe { sio_read_array24(address(bytes), bytes.len(), position.as_ptr(), value.as_ptr()) }
}

pub fn write_u8(bytes: &Bytes, position: &Cell<usize>, value: u8) -> u32 {
    unsafe { sio_write_u8(address(bytes), bytes.len(), position.as_ptr(), value) }
}

pub fn write_u16(bytes: &Bytes, position: &Cell<usize>, value: u16) -> u32 {
    unsafe { sio_write_u16(address(bytes), bytes.len(), position.as_ptr(), value) }
}

pub fn write_u32(bytes: &Bytes, position: &Cell<usize>, value: u32) -> u32 {
    unsafe { sio_write_u32(address(bytes), bytes.len(), position.as_ptr(), value) }
}

pub fn write_u64(bytes: &Bytes, position: &Cell<usize>, value: u64) -> u32 {
    unsafe { sio_write_u64(address(bytes), bytes.len(), position.as_ptr(), value) }
}

pub fn write_bytes(bytes: &Bytes, position: &Cell<usize>, src: &Bytes) -> u32 {
    unsafe { sio_write_bytes(address(bytes), bytes.len(), position.as_ptr(), address(src), src.len()) }
}

pub fn write_zeros(bytes: &Bytes, position: &Cell<usize>, count: usize) -> u32 {
    unsafe { sio_write_zeros(address(bytes), bytes.len(), position.as_ptr(), count) }
}

pub fn encode(slot: &Bytes, at: &Identity, version: &Version, payload: &Bytes, header_crc32c: &Cell<u32>) -> u32 {
    unsafe {
        sio_encode(
            address(slot),
            slot.len(),
            at.volume0,
            at.volume1,
            at.object_id,
            version.generation,
            version.owner_generation,
            at.slot_offset,
            at.index,
            at.log2_slot_size,
            version.prev_header_crc32c,
            at.format_major,
            version.meta_seq,
            version.compat_flags,
            address(payload),
            payload.len(),
            header_crc32c.as_ptr(),
        )
    }
}

pub fn validate(slot: &Bytes, at: &Identity, numbered: u32, found: &Cell<[u64; 9]>) -> u32 {
    unsafe {
        sio_validate(
            address(slot),
            slot.len(),
            at.volume0,
            at.volume1,
            at.object_id,
            at.slot_offset,
            at.index,
            at.log2_slot_size,
            at.format_major,
            numbered,
            found.as_ptr(),
        )
    }
}

pub fn header_facts(slot: &Bytes, at: &Identity, numbered: u32, found: &Cell<[u64; 4]>) -> u32 {
    unsafe {
        sio_header_facts(
            address(slot),
            slot.len(),
            at.volume0,
            at.volume1,
            at.object_id,
            at.slot_offset,
            at.index,
            at.log2_slot_size,
            at.format_major,
            numbered,
            found.as_ptr(),
        )
    }
}

pub fn frame_slot(slot: &Bytes, at: &Identity, numbered: u32, part: &Cell<[u8; HALF]>) -> u32 {
    unsafe {
        sio_frame_slot(
            address(slot),
            slot.len(),
            at.volume0,
            at.volume1,
            at.object_id,
            at.slot_offset,
            at.index,
            at.log2_slot_size,
            at.format_major,
            numbered,
            part.as_ptr(),
        )
    }
}

pub fn decide(a: &Side, b: &Side, report: &Cell<[u8; 5]>) -> u32 {
    unsafe {
        sio_decide(
            a.status,
            a.generation,
            a.header_crc32c,
            a.prev_header_crc32c,
            b.status,
            b.generation,
            b.header_crc32c,
            b.prev_header_crc32c,
            report.as_ptr(),
        )
    }
}

pub fn judge(frames: &Bytes, clean: u8, verdicts: &Bytes, judgement: &Cell<[u64; JUDGEMENT]>) -> u32 {
    unsafe { sio_judge(address(frames), frames.len(), clean, address(verdicts), verdicts.len(), judgement.as_ptr()) }
}
