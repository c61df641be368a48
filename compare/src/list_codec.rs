//! The fixed list of the checksum and the cursor.
//!
//! Sizes have 8 bytes; a buffer comes last, or after its length in 2 bytes where a field follows.
//!
//! | NAME | INPUT | EXPECTED |
//! |---|---|---|
//! | crc | bytes | checksum |
//! | app | checksum (4), bytes | checksum |
//! | gap | head, zeros (2), tail | checksum |
//! | ru1 ru2 ru4 ru8 a16 a24 | position, buffer | refusal (1), position, value where not refused |
//! | run | position, count, buffer | refusal (1), position, start (8) where not refused |
//! | wu1 wu2 wu4 wu8 | position, value, buffer | refusal (1), position, buffer |
//! | wby | position, source, buffer | refusal (1), position, buffer |
//! | wze | position, count, buffer | refusal (1), position, buffer |

use crate::codec::{CodecError, Reader, Writer};
use crate::crc32c::{crc32c, crc32c_append};
use crate::list::{with_len, List};
use crate::reference::{self, Read};
use crate::value::Value;

const LONGEST_SOURCE: usize = 20;

pub fn fill(list: &mut List) {
    checksums(list);
    appends(list);
    gaps(list);
    reads(list);
    runs(list);
    writes(list);
    source_writes(list);
    zero_writes(list);
}

fn checksums(list: &mut List) {
    checksum(list, &[]);
    for byte in [0x00, 0x01, 0x02, 0x04, 0x08, 0x10, 0x20, 0x40, 0x80, 0x55, 0xaa, 0xff] {
        checksum(list, &[byte]);
    }
    for pair in [[0x00, 0x00], [0x00, 0x01], [0x01, 0x00], [0xff, 0x00], [0x00, 0xff], [0xff, 0xff]] {
        checksum(list, &pair);
    }
    checksum(list, b"123456789");
    published_examples(list);
    for len in (3..=18).chain([24, 25, 31, 33, 64, 65, 124, 300]) {
        let bytes = list.random_bytes(len);
        checksum(list, &bytes);
    }
}

/// The examples of RFC 3720, section B.4.
fn published_examples(list: &mut List) {
    let ascending: [u8; 32] = std::array::from_fn(|i| i as u8);
    let descending: [u8; 32] = std::array::from_fn(|i| 31 - i as u8);
    let mut command = [0; 48];
    for (at, byte) in [(0, 0x01), (1, 0xc0), (16, 0x14), (22, 0x04), (27, 0x14), (31, 0x18), (32, 0x28), (40, 0x02)] {
        command[at] = byte;
    }
    checksum(list, &[0; 32]);
    checksum(list, &[0xff; 32]);
    checksum(list, &ascending);
    checksum(list, &descending);
    checksum(list, &command);
}

fn checksum(list: &mut List, bytes: &[u8]) {
    list.line("crc", bytes, &crc32c(bytes).packed());
}

fn appends(list: &mut List) {
    for crc in [0, 1, 0x8000_0000, u32::MAX] {
        for len in [0, 1, 7, 8, 9] {
            let bytes = list.random_bytes(len);
            append(list, crc, &bytes);
        }
    }
    let digits = b"123456789";
    for split in 0..=digits.len() {
        append(list, crc32c(&digits[..split]), &digits[split..]);
    }
}

fn append(list: &mut List, crc: u32, bytes: &[u8]) {
    let input = [&crc.packed()[..], bytes].concat();
    list.line("app", &input, &crc32c_append(crc, bytes).packed());
}

fn gaps(list: &mut List) {
    for head in [0, 1, 8] {
        for zeros in [0, 1, 7, 8, 300] {
            for tail in [0, 1, 9] {
                let head = list.random_bytes(head);
                let tail = list.random_bytes(tail);
                gap(list, &head, zeros, &tail);
            }
        }
    }
}

fn gap(list: &mut List, head: &[u8], zeros: u16, tail: &[u8]) {
    let input = [&with_len(head)[..], &zeros.packed(), tail].concat();
    let joined = [head, &vec![0; usize::from(zeros)], tail].concat();
    list.line("gap", &input, &crc32c(&joined).packed());
}

fn reads(list: &mut List) {
    read_each(list, "ru1", 1, |reader| reader.u8());
    read_each(list, "ru2", 2, |reader| reader.u16());
    read_each(list, "ru4", 4, |reader| reader.u32());
    read_each(list, "ru8", 8, |reader| reader.u64());
    read_each(list, "a16", 16, |reader| reader.array::<16>());
    read_each(list, "a24", 24, |reader| reader.array::<24>());
}

fn read_each<T: Value>(list: &mut List, name: &str, width: usize, step: fn(&mut Reader<'_>) -> Result<T, CodecError>) {
    for (len, position) in places(width) {
        let bytes = list.random_bytes(len);
        let input = [&position.packed()[..], &bytes].concat();
        let answer = reference::read(&bytes, position, step);
        read_line(list, name, &input, answer);
    }
}

fn runs(list: &mut List) {
    for (len, position, count) in counts() {
        let bytes = list.random_bytes(len);
        let input = [&position.packed()[..], &count.packed(), &bytes].concat();
        let answer = reference::read_run(&bytes, position, count);
        read_line(list, "run", &input, answer);
    }
}

fn read_line<T: Value>(list: &mut List, name: &str, input: &[u8], answer: Option<Read<T>>) {
    let Some(answer) = answer else { return };
    let mut expected = vec![answer.refusal as u8];
    expected.extend(answer.position.packed());
    expected.extend(answer.value.map(Value::packed).unwrap_or_default());
    list.line(name, input, &expected);
}

fn writes(list: &mut List) {
    write_each(list, "wu1", 1, |writer, value| writer.u8(value));
    write_each(list, "wu2", 2, |writer, value| writer.u16(value));
    write_each(list, "wu4", 4, |writer, value| writer.u32(value));
    write_each(list, "wu8", 8, |writer, value| writer.u64(value));
}

fn write_each<T: Value>(
    list: &mut List,
    name: &str,
    width: usize,
    step: fn(&mut Writer<'_>, T) -> Result<(), CodecError>,
) {
    for (len, position) in places(width) {
        let value = T::random(&mut list.rng);
        write_line(list, name, len, position, &value.packed(), |writer| step(writer, value));
    }
}

fn source_writes(list: &mut List) {
    for (len, position, count) in counts() {
        if count > LONGEST_SOURCE {
            continue;
        }
        let source = list.random_bytes(count);
        write_line(list, "wby", len, position, &with_len(&source), |writer| writer.bytes(&source));
    }
}

fn zero_writes(list: &mut List) {
    for (len, position, count) in counts() {
        write_line(list, "wze", len, position, &count.packed(), |writer| writer.zeros(count));
    }
}

fn write_line(
    list: &mut List,
    name: &str,
    len: usize,
    position: usize,
    argument: &[u8],
    step: impl FnOnce(&mut Writer<'_>) -> Result<(), CodecError>,
) {
    let mut bytes = list.random_bytes(len);
    let input = [&position.packed()[..], argument, &bytes].concat();
    let Some(answer) = reference::write(&mut bytes, position, step) else { return };
    let mut expected = vec![answer.refusal as u8];
    expected.extend(answer.position.packed());
    expected.extend(&bytes);
    list.line(name, &input, &expected);
}

/// Lengths of a buffer around `width` and positions in it around the last that leaves `width` bytes.
fn places(width: usize) -> Vec<(usize, usize)> {
    let mut places = Vec::new();
    for len in [0, width - 1, width, width + 1, width + 5] {
        for position in [0, 1, len.saturating_sub(width), (len + 1).saturating_sub(width), len] {
            if position <= len {
                places.push((len, position));
            }
        }
    }
    sorted(places)
}

/// Lengths of a buffer, positions in it, and counts around what is left there, or far more.
fn counts() -> Vec<(usize, usize, usize)> {
    let mut counts = Vec::new();
    for (len, position) in [(0, 0), (1, 0), (1, 1), (9, 0), (9, 4), (9, 9)] {
        let left = len - position;
        for count in [0, 1, left, left + 1, left + 9, usize::MAX - position, usize::MAX] {
            counts.push((len, position, count));
        }
    }
    sorted(counts)
}

fn sorted<T: Ord>(mut cases: Vec<T>) -> Vec<T> {
    cases.sort();
    cases.dedup();
    cases
}
