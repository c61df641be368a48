//! The functions of include/store_io.h for table pages and their entries, as in ffi.rs.

use crate::ffi::{address, Bytes};
use std::cell::Cell;

extern "C" {
    fn sio_decode_page(bytes: *const u8, len: usize, page_index: u32, max_entries: u16, found: *mut [u64; 5]) -> u32;
    fn sio_encode_page(
        bytes: *mut u8,
        len: usize,
        page_index: u32,
        next_seq: u32,
        count: u16,
        entries: *const u8,
        entries_len: usize,
        written: *mut usize,
    ) -> u32;

    fn sio_read_entry(entry: *const u8, len: usize, found: *mut [u64; 15], name: *mut [u8; 24]) -> u32;
    fn sio_write_entry(
        bytes: *mut u8,
        len: usize,
        seq: u32,
        kind: u8,
        state: u8,
        flags: u8,
        compat_flags: u8,
        name: *const [u8; 24],
        tag: u32,
        extent_count: u16,
        header_a: u64,
        header_b: u64,
        data_size: u64,
        capacity: u64,
        span_start: u64,
        span_end: u64,
        footprint_seq: u64,
        written: *mut usize,
    ) -> u32;
    fn sio_check_entry(
        entry: *const u8,
        len: usize,
        log2_block: u8,
        table_end: u64,
        file_len: u64,
        page_meta_seq: u64,
        found: *mut [u64; 13],
        name: *mut [u8; 24],
        name_len: *mut u8,
    ) -> u32;
    fn sio_entry_to_raw(
        entry: *const u8,
        len: usize,
        log2_block: u8,
        table_end: u64,
        file_len: u64,
        page_meta_seq: u64,
        raw: *mut [u8; 96],
    ) -> u32;
    fn sio_entry_name(entry: *const u8, len: usize, name: *mut [u8; 24], name_len: *mut u8) -> u32;
    fn sio_entry_name_and_kind(
        entry: *const u8,
        len: usize,
        kind: *mut u8,
        name: *mut [u8; 24],
        name_len: *mut u8,
    ) -> u32;
    fn sio_reserved_span(
        entry: *const u8,
        len: usize,
        log2_block: u8,
        table_end: u64,
        file_len: u64,
        span: *mut [u64; 2],
    ) -> u32;
}

/// The numbers of a page's header.
#[derive(Clone, Copy)]
pub struct Header {
    pub page_index: u32,
    pub next_seq: u32,
    pub count: u16,
}

/// The fields of an entry that are written.
#[derive(Clone, Copy)]
pub struct Entry {
    pub seq: u32,
    pub kind: u8,
    pub state: u8,
    pub flags: u8,
    pub compat_flags: u8,
    pub name: [u8; 24],
    pub tag: u32,
    pub extent_count: u16,
    pub header_a: u64,
    pub header_b: u64,
    pub data_size: u64,
    pub capacity: u64,
    pub span_start: u64,
    pub span_end: u64,
    pub footprint_seq: u64,
}

/// What an entry is checked with.
#[derive(Clone, Copy)]
pub struct Limits {
    pub log2_block: u8,
    pub table_end: u64,
    pub file_len: u64,
    pub page_meta_seq: u64,
}

// SAFETY, for every call below: as in ffi.rs.

pub fn decode_page(bytes: &Bytes, page_index: u32, max_entries: u16, found: &Cell<[u64; 5]>) -> u32 {
    unsafe { sio_decode_page(address(bytes), bytes.len(), page_index, max_entries, found.as_ptr()) }
}

pub fn encode_page(bytes: &Bytes, header: &Header, entries: &Bytes, written: &Cell<usize>) -> u32 {
    unsafe {
        sio_encode_page(
            address(bytes),
            bytes.len(),
            header.page_index,
            header.next_seq,
            header.count,
            address(entries),
            entries.len(),
            written.as_ptr(),
        )
    }
}

pub fn read_entry(entry: &Bytes, found: &Cell<[u64; 15]>, name: &Cell<[u8; 24]>) -> u32 {
    unsafe { sio_read_entry(address(entry), entry.len(), found.as_ptr(), name.as_ptr()) }
}

/// The name is lent in its own cell; that of `entry` is not used.
pub fn write_entry(bytes: &Bytes, entry: &Entry, name: &Cell<[u8; 24]>, written: &Cell<usize>) -> u32 {
    unsafe {
        sio_write_entry(
            address(bytes),
            bytes.len(),
            entry.seq,
            entry.kind,
            entry.state,
            entry.flags,
            entry.compat_flags,
            name.as_ptr(),
            entry.tag,
            entry.extent_count,
            entry.header_a,
            entry.header_b,
            entry.data_size,
            entry.capacity,
            entry.span_start,
            entry.span_end,
            entry.footprint_seq,
            written.as_ptr(),
        )
    }
}

pub fn check_entry(
    entry: &Bytes,
    limits: &Limits,
    found: &Cell<[u64; 13]>,
    name: &Cell<[u8; 24]>,
    name_len: &Cell<u8>,
) -> u32 {
    unsafe {
        sio_check_entry(
            address(entry),
            entry.len(),
            limits.log2_block,
            limits.table_end,
            limits.file_len,
            limits.page_meta_seq,
            found.as_ptr(),
            name.as_ptr(),
            name_len.as_ptr(),
        )
    }
}

pub fn entry_to_raw(entry: &Bytes, limits: &Limits, raw: &Cell<[u8; 96]>) -> u32 {
    unsafe {
        sio_entry_to_raw(
            address(entry),
            entry.len(),
            limits.log2_block,
            limits.table_end,
            limits.file_len,
            limits.page_meta_seq,
            raw.as_ptr(),
        )
    }
}

pub fn entry_name(entry: &Bytes, name: &Cell<[u8; 24]>, name_len: &Cell<u8>) -> u32 {
    unsafe { sio_entry_name(address(entry), entry.len(), name.as_ptr(), name_len.as_ptr()) }
}

pub fn entry_name_and_kind(entry: &Bytes, kind: &Cell<u8>, name: &Cell<[u8; 24]>, name_len: &Cell<u8>) -> u32 {
    unsafe { sio_entry_name_and_kind(address(entry), entry.len(), kind.as_ptr(), name.as_ptr(), name_len.as_ptr()) }
}

pub fn reserved_span(entry: &Bytes, limits: &Limits, span: &Cell<[u64; 2]>) -> u32 {
    unsafe {
        sio_reserved_span(
            address(entry),
            entry.len(),
            limits.log2_block,
            limits.table_end,
            limits.file_len,
            span.as_ptr(),
        )
    }
}
