//! What the Rust reference answers to one call of the reading and writing functions.

use crate::codec::{CodecError, Reader, Writer};

/// The answer to a read; `value` is there where it was not refused.
pub struct Read<T> {
    pub refusal: u32,
    pub position: usize,
    pub value: Option<T>,
}

/// The answer to a write; the bytes are in the buffer.
pub struct Written {
    pub refusal: u32,
    pub position: usize,
}

fn refusal(error: CodecError) -> u32 {
    match error {
        CodecError::Truncated => 6,
        CodecError::Overflow => 7,
    }
}

/// A reader at `position`, or `None` past the end, where a `Reader` cannot stand.
fn reader(bytes: &[u8], position: usize) -> Option<Reader<'_>> {
    let mut reader = Reader::new(bytes);
    reader.bytes(position).ok()?;
    Some(reader)
}

pub fn remaining(bytes: &[u8], position: usize) -> Option<usize> {
    reader(bytes, position).map(|reader| reader.remaining())
}

/// One read at `position`; `None` past the end.
pub fn read<'a, T>(
    bytes: &'a [u8],
    position: usize,
    step: impl FnOnce(&mut Reader<'a>) -> Result<T, CodecError>,
) -> Option<Read<T>> {
    let mut reader = reader(bytes, position)?;
    let (refusal, value) = match step(&mut reader) {
        Ok(value) => (0, Some(value)),
        Err(error) => (refusal(error), None),
    };
    let position = reader.position();
    Some(Read { refusal, position, value })
}

/// A run of `count` bytes at `position`, as the place in `bytes` where it begins; `None` past the end.
pub fn read_run(bytes: &[u8], position: usize, count: usize) -> Option<Read<usize>> {
    read(bytes, position, |reader| {
        let run = reader.bytes(count)?;
        Ok(run.as_ptr() as usize - bytes.as_ptr() as usize)
    })
}

/// One write at `position`; `None` past the end.
pub fn write(
    bytes: &mut [u8],
    position: usize,
    step: impl FnOnce(&mut Writer<'_>) -> Result<(), CodecError>,
) -> Option<Written> {
    let before = bytes.get(..position)?.to_vec();
    let mut writer = Writer::new(bytes);
    writer.bytes(&before).ok()?;
    let refusal = step(&mut writer).map_or_else(refusal, |()| 0);
    let position = writer.position();
    Some(Written { refusal, position })
}
