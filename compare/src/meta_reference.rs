//! What the Rust reference answers to one call of the functions for region names and the volume record.
//!
//! The library differs from it: names are bytes, of which the reference takes only text; a name's bytes are printable; the
//! table's end and the file's length refuse sizes out of range; and a buffer that is too short for a record keeps its bytes.

use crate::ffi_volume::{Base, Geometry, Volume};
use crate::meta::{MetaError, RegionName, VolumeMeta};
use crate::meta2::{self, VolumeMeta2};
use crate::outcome::Expected;

pub const NAME: u32 = 35;
pub const LOG2_BLOCK_SIZE: u32 = 23;
pub const LOG2_TABLE_SLOT_SIZE: u32 = 24;

/// The number of the refusal that an error is.
pub fn refusal_number(error: MetaError) -> u32 {
    match error {
        MetaError::Length => 11,
        MetaError::Duplicate => 12,
        MetaError::Unaligned => 13,
        MetaError::Overlap => panic!("only tables of format 1 are refused with {error:?}"),
        MetaError::Field(field) => field_number(field),
    }
}

fn field_number(field: &str) -> u32 {
    match field {
        "features" => 20,
        "flags" => 21,
        "reserved" => 22,
        "log2_block_size" => LOG2_BLOCK_SIZE,
        "log2_table_slot_size" => LOG2_TABLE_SLOT_SIZE,
        "table_offset" => 25,
        "table_pages" => 26,
        "entries_per_page" => 27,
        "clean_close" => 28,
        "page_index" => 29,
        "count" => 30,
        "seq" => 31,
        "log2_block" => 32,
        "kind" => 33,
        "state" => 34,
        "name" => NAME,
        "data_size" => 36,
        "span" => 37,
        "capacity" => 38,
        "header" => 39,
        "footprint_seq" => 40,
        "slot" => 41,
        "extent_count" => 42,
        _ => panic!("the field {field} has no number"),
    }
}

/// A name as it is stored, and its length.
pub type Name = ([u8; 24], u8);

pub const NO_NAME: Name = ([0; 24], 0);

/// Which names are taken.
#[derive(Clone, Copy)]
pub enum Names {
    /// The library's: each byte is 20 (hexadecimal) or above, and not 7F.
    Printable,
    /// The reference's, with any byte but a zero.
    Any,
}

impl Names {
    fn takes(self, name: &[u8]) -> bool {
        match self {
            Self::Printable => name.iter().all(|byte| !matches!(byte, 0x00..=0x1f | 0x7f)),
            Self::Any => true,
        }
    }

    /// What the reference is asked about: no bytes in the place of a name that is not taken, which it refuses too. So the
    /// refusal keeps its place among the others.
    fn asked(self, name: &[u8]) -> &[u8] {
        if self.takes(name) {
            name
        } else {
            &[]
        }
    }

    /// The same of a name as it is stored.
    pub fn asked_padded(self, raw: [u8; 24]) -> [u8; 24] {
        let len = raw.iter().position(|byte| *byte == 0).unwrap_or(raw.len());
        if self.takes(&raw[..len]) {
            raw
        } else {
            [0; 24]
        }
    }
}

pub fn region_name(name: &[u8], names: Names) -> Expected<Name> {
    let text = std::str::from_utf8(names.asked(name)).map_err(|_| NAME)?;
    RegionName::new(text).map(|name| stored_name(&name)).map_err(refusal_number)
}

pub fn region_name_padded(raw: [u8; 24], names: Names) -> Expected<Name> {
    RegionName::from_padded(names.asked_padded(raw)).map(|name| stored_name(&name)).map_err(refusal_number)
}

pub fn stored_name(name: &RegionName) -> Name {
    let text = name.as_str().as_bytes();
    let mut stored = [0; 24];
    stored[..text.len()].copy_from_slice(text);
    (stored, text.len() as u8)
}

pub fn volume_decode(bytes: &[u8]) -> Expected<[u64; 11]> {
    let volume = VolumeMeta2::decode(bytes).map_err(refusal_number)?;
    let [block, table, device, owner, offset, created, features] = base_numbers(&volume.base);
    Ok([
        block,
        table,
        device,
        owner,
        offset,
        created,
        features,
        volume.table_pages.into(),
        volume.entries_per_page.into(),
        volume.clean_close.into(),
        volume.flags.into(),
    ])
}

pub fn volume_encode(bytes: &mut [u8], volume: &Volume) -> Expected<usize> {
    let record = VolumeMeta2 {
        base: base_record(&volume.base),
        table_pages: volume.table_pages,
        entries_per_page: volume.entries_per_page,
        clean_close: volume.clean_close != 0,
        flags: volume.flags,
    };
    written(bytes, |out| record.encode(out))
}

pub fn volume_base_decode(bytes: &[u8]) -> Expected<[u64; 7]> {
    VolumeMeta::decode(bytes).map(|base| base_numbers(&base)).map_err(refusal_number)
}

pub fn volume_base_encode(bytes: &mut [u8], base: &Base) -> Expected<usize> {
    let record = base_record(base);
    written(bytes, |out| record.encode(out))
}

fn base_numbers(base: &VolumeMeta) -> [u64; 7] {
    [
        base.log2_block_size.into(),
        base.log2_table_slot_size.into(),
        base.device_index.into(),
        base.owner_generation,
        base.table_offset,
        base.created_unix_s,
        base.features,
    ]
}

fn base_record(base: &Base) -> VolumeMeta {
    VolumeMeta {
        log2_block_size: base.log2_block_size,
        log2_table_slot_size: base.log2_table_slot_size,
        device_index: base.device_index,
        owner_generation: base.owner_generation,
        table_offset: base.table_offset,
        created_unix_s: base.created_unix_s,
        features: base.features,
    }
}

/// What `write` writes, unless it refuses: then the reference may have written a prefix, and `bytes` stays as it is.
pub fn written(bytes: &mut [u8], write: impl FnOnce(&mut [u8]) -> Result<usize, MetaError>) -> Expected<usize> {
    let mut out = bytes.to_vec();
    let len = write(&mut out).map_err(refusal_number)?;
    bytes.copy_from_slice(&out);
    Ok(len)
}

pub fn entries_per_page(log2_table: u8) -> u16 {
    meta2::entries_per_page(log2_table)
}

pub fn table_end(at: &Geometry) -> Expected<u64> {
    Ok(volume_in_range(at)?.table_end())
}

pub fn check_file_len(at: &Geometry, file_len: u64) -> Expected<()> {
    volume_in_range(at)?.check_file_len(file_len).map_err(refusal_number)
}

/// A record with sizes by which the reference may be asked where the table ends.
fn volume_in_range(at: &Geometry) -> Expected<VolumeMeta2> {
    if !(12..=16).contains(&at.log2_block_size) {
        return Err(LOG2_BLOCK_SIZE);
    }
    if !(at.log2_block_size..=16).contains(&at.log2_table_slot_size) {
        return Err(LOG2_TABLE_SLOT_SIZE);
    }
    let base = VolumeMeta {
        log2_block_size: at.log2_block_size,
        log2_table_slot_size: at.log2_table_slot_size,
        device_index: 0,
        owner_generation: 0,
        table_offset: 0,
        created_unix_s: 0,
        features: 0,
    };
    Ok(VolumeMeta2 { base, table_pages: at.table_pages, entries_per_page: 0, clean_close: false, flags: 0 })
}
