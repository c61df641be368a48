//! Compares the reading and writing functions with the reference's codec.rs.

use crate::codec::{CodecError, Reader, Writer};
use crate::counts::{Answer, Function};
use crate::ffi;
use crate::lent::{Lent, LentCell};
use crate::part::{number, Checked, Fields, Part, Report, Run};
use crate::reference::{self, Read, Written};
use crate::rng::Rng;
use crate::value::Value;
use std::cell::Cell;

const TRUNCATED: u32 = 6;
const OVERFLOW: u32 = 7;

const REMAINING: &[Answer] = &[Answer::Done, Answer::PastEnd];
const READING: &[Answer] = &[Answer::Done, Answer::Refusal(TRUNCATED), Answer::PastEnd];
const WRITING: &[Answer] = &[Answer::Done, Answer::Refusal(OVERFLOW), Answer::PastEnd];

pub const PART: Part = Part {
    functions: &[
        Function::new("sio_remaining", REMAINING),
        Function::new("sio_read_u8", READING),
        Function::new("sio_read_u16", READING),
        Function::new("sio_read_u32", READING),
        Function::new("sio_read_u64", READING),
        Function::new("sio_read_bytes", READING),
        Function::new("sio_read_array16", READING),
        Function::new("sio_read_array24", READING),
        Function::new("sio_write_u8", WRITING),
        Function::new("sio_write_u16", WRITING),
        Function::new("sio_write_u32", WRITING),
        Function::new("sio_write_u64", WRITING),
        Function::new("sio_write_bytes", WRITING),
        Function::new("sio_write_zeros", WRITING),
    ],
    sweep,
    round,
};

const LONGEST: usize = 40;

/// How far past the end positions and counts go one by one.
const BEHIND: usize = 9;

/// Positions and counts far past any end.
const HUGE: [usize; 14] = [
    usize::MAX,
    usize::MAX - 1,
    usize::MAX - 7,
    usize::MAX - 8,
    usize::MAX - 15,
    usize::MAX - 23,
    usize::MAX - 40,
    usize::MAX / 2,
    usize::MAX / 2 + 1,
    usize::MAX / 2 + 2,
    1 << 31,
    (1 << 32) - 1,
    1 << 32,
    (1 << 32) + 1,
];

fn sweep(run: &mut Run) -> Checked {
    for len in 0..=LONGEST {
        for position in places(len) {
            every_width(run, len, position)?;
            for count in places(len) {
                read_bytes(run, len, position, count)?;
                write_zeros(run, len, position, count)?;
            }
            for count in 0..=len + BEHIND {
                write_bytes(run, len, position, count)?;
            }
        }
    }
    Ok(())
}

fn round(run: &mut Run) -> Checked {
    let len = random_len(&mut run.rng);
    let position = random_place(&mut run.rng, len);
    every_width(run, len, position)?;
    let count = random_place(&mut run.rng, len);
    read_bytes(run, len, position, count)?;
    let count = random_place(&mut run.rng, len);
    write_zeros(run, len, position, count)?;
    let count = run.rng.below(len + BEHIND + 1);
    write_bytes(run, len, position, count)
}

/// Every place up to and past the end of `len` bytes, and those far past it.
fn places(len: usize) -> impl Iterator<Item = usize> {
    (0..=len + BEHIND).chain(HUGE)
}

fn random_len(rng: &mut Rng) -> usize {
    if rng.one_in(8) {
        rng.below(301)
    } else {
        rng.below(LONGEST + 1)
    }
}

fn random_place(rng: &mut Rng, len: usize) -> usize {
    match rng.below(16) {
        0 => rng.pick(&HUGE),
        1 => rng.next() as usize,
        _ => rng.below(len + BEHIND + 1),
    }
}

fn every_width(run: &mut Run, len: usize, position: usize) -> Checked {
    remaining(run, len, position)?;
    read(run, Call::new("sio_read_u8", len, position), |reader| reader.u8(), ffi::read_u8)?;
    read(run, Call::new("sio_read_u16", len, position), |reader| reader.u16(), ffi::read_u16)?;
    read(run, Call::new("sio_read_u32", len, position), |reader| reader.u32(), ffi::read_u32)?;
    read(run, Call::new("sio_read_u64", len, position), |reader| reader.u64(), ffi::read_u64)?;
    read(run, Call::new("sio_read_array16", len, position), |reader| reader.array(), ffi::read_array16)?;
    read(run, Call::new("sio_read_array24", len, position), |reader| reader.array(), ffi::read_array24)?;
    write(run, Call::new("sio_write_u8", len, position), |writer, value| writer.u8(value), ffi::write_u8)?;
    write(run, Call::new("sio_write_u16", len, position), |writer, value| writer.u16(value), ffi::write_u16)?;
    write(run, Call::new("sio_write_u32", len, position), |writer, value| writer.u32(value), ffi::write_u32)?;
    write(run, Call::new("sio_write_u64", len, position), |writer, value| writer.u64(value), ffi::write_u64)
}

/// A call at a position of a buffer of some length, with at most one number besides.
struct Call {
    function: &'static str,
    len: usize,
    position: usize,
    number: Option<(&'static str, u64)>,
}

impl Call {
    fn new(function: &'static str, len: usize, position: usize) -> Self {
        Self { function, len, position, number: None }
    }

    fn with(mut self, name: &'static str, number: u64) -> Self {
        self.number = Some((name, number));
        self
    }

    fn answer(&self, refusal: u32) -> Answer {
        match refusal {
            _ if self.position > self.len => Answer::PastEnd,
            0 => Answer::Done,
            _ => Answer::Refusal(refusal),
        }
    }

    fn inputs(&self, lent: &[&Lent]) -> Fields {
        let mut inputs = vec![("position", number(self.position))];
        inputs.extend(self.number.map(|(name, value)| (name, number(value))));
        inputs.extend(named(lent).map(|(name, buffer)| (name, buffer.before_text())));
        inputs
    }
}

/// The lent buffers with their names in the interface.
fn named<'a>(lent: &'a [&'a Lent]) -> impl Iterator<Item = (&'static str, &'a Lent)> {
    ["bytes", "src"].into_iter().zip(lent.iter().copied())
}

fn remaining(run: &mut Run, len: usize, position: usize) -> Checked {
    let call = Call::new("sio_remaining", len, position);
    let bytes = Lent::random(&mut run.rng, len);
    let expected = reference::remaining(bytes.expected(), position).unwrap_or(0);
    let found = ffi::remaining(bytes.cells(), position);
    let equal = found == expected && bytes.holds();
    run.case(call.function, call.answer(0), equal, || Report {
        inputs: call.inputs(&[&bytes]),
        expected: vec![("remaining", number(expected)), ("bytes", bytes.expected_text())],
        found: vec![("remaining", number(found)), ("bytes", bytes.found_text())],
    })
}

fn read<T: Value>(
    run: &mut Run,
    call: Call,
    theirs: fn(&mut Reader<'_>) -> Result<T, CodecError>,
    ours: fn(&[Cell<u8>], &Cell<usize>, &Cell<T>) -> u32,
) -> Checked {
    let bytes = Lent::random(&mut run.rng, call.len);
    let expected = reference::read(bytes.expected(), call.position, theirs);
    compare_read(run, &call, &bytes, expected, ours)
}

fn read_bytes(run: &mut Run, len: usize, position: usize, count: usize) -> Checked {
    let call = Call::new("sio_read_bytes", len, position).with("count", count as u64);
    let bytes = Lent::random(&mut run.rng, len);
    let expected = reference::read_run(bytes.expected(), position, count);
    compare_read(run, &call, &bytes, expected, |bytes, position, start| ffi::read_bytes(bytes, position, count, start))
}

/// Where the reference has no answer, past the end, a read is refused and changes nothing.
fn compare_read<T: Value>(
    run: &mut Run,
    call: &Call,
    bytes: &Lent,
    expected: Option<Read<T>>,
    ours: impl FnOnce(&[Cell<u8>], &Cell<usize>, &Cell<T>) -> u32,
) -> Checked {
    let expected = expected.unwrap_or(Read { refusal: TRUNCATED, position: call.position, value: None });
    let position = LentCell::holding(&mut run.rng, call.position);
    let value = LentCell::random(&mut run.rng);
    let refusal = ours(bytes.cells(), position.cell(), value.cell());
    let equal = refusal == expected.refusal
        && position.holds(Some(expected.position))
        && value.holds(expected.value)
        && bytes.holds();
    run.case(call.function, call.answer(expected.refusal), equal, || Report {
        inputs: call.inputs(&[bytes]),
        expected: vec![
            ("refusal", number(expected.refusal)),
            ("position cell", position.expected_text(Some(expected.position))),
            ("value cell", value.expected_text(expected.value)),
            ("bytes", bytes.expected_text()),
        ],
        found: vec![
            ("refusal", number(refusal)),
            ("position cell", position.found_text()),
            ("value cell", value.found_text()),
            ("bytes", bytes.found_text()),
        ],
    })
}

fn write<T: Value + Into<u64>>(
    run: &mut Run,
    call: Call,
    theirs: fn(&mut Writer<'_>, T) -> Result<(), CodecError>,
    ours: fn(&[Cell<u8>], &Cell<usize>, T) -> u32,
) -> Checked {
    let value = T::random(&mut run.rng);
    let call = call.with("value", value.into());
    let mut bytes = Lent::random(&mut run.rng, call.len);
    let expected = reference::write(bytes.expected_mut(), call.position, |writer| theirs(writer, value));
    compare_write(run, &call, [&bytes], expected, |bytes, position| ours(bytes, position, value))
}

fn write_zeros(run: &mut Run, len: usize, position: usize, count: usize) -> Checked {
    let call = Call::new("sio_write_zeros", len, position).with("count", count as u64);
    let mut bytes = Lent::random(&mut run.rng, len);
    let expected = reference::write(bytes.expected_mut(), position, |writer| writer.zeros(count));
    compare_write(run, &call, [&bytes], expected, |bytes, position| ffi::write_zeros(bytes, position, count))
}

fn write_bytes(run: &mut Run, len: usize, position: usize, count: usize) -> Checked {
    let call = Call::new("sio_write_bytes", len, position).with("src_len", count as u64);
    let mut bytes = Lent::random(&mut run.rng, len);
    let src = Lent::random(&mut run.rng, count);
    let expected = reference::write(bytes.expected_mut(), position, |writer| writer.bytes(src.expected()));
    compare_write(run, &call, [&bytes, &src], expected, |bytes, position| {
        ffi::write_bytes(bytes, position, src.cells())
    })
}

/// The first of `lent` is the buffer written to; all of them must hold what is expected of them.
/// Where the reference has no answer, past the end, a write is refused and changes nothing.
fn compare_write<const N: usize>(
    run: &mut Run,
    call: &Call,
    lent: [&Lent; N],
    expected: Option<Written>,
    ours: impl FnOnce(&[Cell<u8>], &Cell<usize>) -> u32,
) -> Checked {
    let expected = expected.unwrap_or(Written { refusal: OVERFLOW, position: call.position });
    let position = LentCell::holding(&mut run.rng, call.position);
    let refusal = ours(lent[0].cells(), position.cell());
    let equal = refusal == expected.refusal
        && position.holds(Some(expected.position))
        && lent.iter().all(|buffer| buffer.holds());
    run.case(call.function, call.answer(expected.refusal), equal, || {
        let mut report = Report {
            inputs: call.inputs(&lent),
            expected: vec![
                ("refusal", number(expected.refusal)),
                ("position cell", position.expected_text(Some(expected.position))),
            ],
            found: vec![("refusal", number(refusal)), ("position cell", position.found_text())],
        };
        for (name, buffer) in named(&lent) {
            report.expected.push((name, buffer.expected_text()));
            report.found.push((name, buffer.found_text()));
        }
        report
    })
}
