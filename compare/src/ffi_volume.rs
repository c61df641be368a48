//! The functions of include/store_io.h for region names and the volume record, as in ffi.rs.

use crate::ffi::{address, Bytes};
use std::cell::Cell;

extern "C" {
    fn sio_region_name(name: *const u8, name_len: usize, stored: *mut [u8; 24], stored_len: *mut u8) -> u32;
    fn sio_region_name_padded(raw: *const u8, stored: *mut [u8; 24], stored_len: *mut u8) -> u32;

    fn sio_volume_decode(bytes: *const u8, len: usize, found: *mut [u64; 11]) -> u32;
    fn sio_volume_encode(
        bytes: *mut u8,
        len: usize,
        log2_block_size: u8,
        log2_table_slot_size: u8,
        device_index: u16,
        owner_generation: u64,
        table_offset: u64,
        created_unix_s: u64,
        features: u64,
        table_pages: u32,
        entries_per_page: u16,
        clean_close: u32,
        flags: u32,
        written: *mut usize,
    ) -> u32;
    fn sio_volume_base_decode(bytes: *const u8, len: usize, found: *mut [u64; 7]) -> u32;
    fn sio_volume_base_encode(
        bytes: *mut u8,
        len: usize,
        log2_block_size: u8,
        log2_table_slot_size: u8,
        device_index: u16,
        owner_generation: u64,
        table_offset: u64,
        created_unix_s: u64,
        features: u64,
        written: *mut usize,
    ) -> u32;

    fn sio_entries_per_page(log2_table: u8) -> u16;
    fn sio_table_end(log2_block_size: u8, log2_table_slot_size: u8, table_pages: u32, end: *mut u64) -> u32;
    fn sio_check_file_len(log2_block_size: u8, log2_table_slot_size: u8, table_pages: u32, file_len: u64) -> u32;
}

/// The part of a volume record that both formats have.
#[derive(Clone, Copy)]
pub struct Base {
    pub log2_block_size: u8,
    pub log2_table_slot_size: u8,
    pub device_index: u16,
    pub owner_generation: u64,
    pub table_offset: u64,
    pub created_unix_s: u64,
    pub features: u64,
}

/// A volume record.
#[derive(Clone, Copy)]
pub struct Volume {
    pub base: Base,
    pub table_pages: u32,
    pub entries_per_page: u16,
    pub clean_close: u32,
    pub flags: u32,
}

/// Where the table lies.
#[derive(Clone, Copy)]
pub struct Geometry {
    pub log2_block_size: u8,
    pub log2_table_slot_size: u8,
    pub table_pages: u32,
}

// SAFETY, for every call below: as in ffi.rs.

pub fn region_name(name: &Bytes, stored: &Cell<[u8; 24]>, stored_len: &Cell<u8>) -> u32 {
    unsafe { sio_region_name(address(name), name.len(), stored.as_ptr(), stored_len.as_ptr()) }
}

pub fn region_name_padded(raw: &Cell<[u8; 24]>, stored: &Cell<[u8; 24]>, stored_len: &Cell<u8>) -> u32 {
    unsafe { sio_region_name_padded(raw.as_ptr().cast(), stored.as_ptr(), stored_len.as_ptr()) }
}

pub fn volume_decode(bytes: &Bytes, found: &Cell<[u64; 11]>) -> u32 {
    unsafe { sio_volume_decode(address(bytes), bytes.len(), found.as_ptr()) }
}

pub fn volume_encode(bytes: &Bytes, volume: &Volume, written: &Cell<usize>) -> u32 {
    unsafe {
        sio_volume_encode(
            address(bytes),
            bytes.len(),
            volume.base.log2_block_size,
            volume.base.log2_table_slot_size,
            volume.base.device_index,
            volume.base.owner_generation,
            volume.base.table_offset,
            volume.base.created_unix_s,
            volume.base.features,
            volume.table_pages,
            volume.entries_per_page,
            volume.clean_close,
            volume.flags,
            written.as_ptr(),
        )
    }
}

pub fn volume_base_decode(bytes: &Bytes, found: &Cell<[u64; 7]>) -> u32 {
    unsafe { sio_volume_base_decode(address(bytes), bytes.len(), found.as_ptr()) }
}

pub fn volume_base_encode(bytes: &Bytes, base: &Base, written: &Cell<usize>) -> u32 {
    unsafe {
        sio_volume_base_encode(
            address(bytes),
            bytes.len(),
            base.log2_block_size,
            base.log2_table_slot_size,
            base.device_index,
            base.owner_generation,
            base.table_offset,
            base.created_unix_s,
            base.features,
            written.as_ptr(),
        )
    }
}

pub fn entries_per_page(log2_table: u8) -> u16 {
    unsafe { sio_entries_per_page(log2_table) }
}

pub fn table_end(at: &Geometry, end: &Cell<u64>) -> u32 {
    unsafe { sio_table_end(at.log2_block_size, at.log2_table_slot_size, at.table_pages, end.as_ptr()) }
}

pub fn check_file_len(at: &Geometry, file_len: u64) -> u32 {
    unsafe { sio_check_file_len(at.log2_block_size, at.log2_table_slot_size, at.table_pages, file_len) }
}
