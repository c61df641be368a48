//! Compares the checksum functions with the reference's crc32c.rs.

use crate::counts::{Answer, Function};
use crate::crc32c::{crc32c, crc32c_append};
use crate::ffi;
use crate::lent::Lent;
use crate::part::{number, Checked, Fields, Part, Report, Run};
use crate::portable;
use crate::value::Value;

const CRC32C: &str = "sio_crc32c";
const APPEND: &str = "sio_crc32c_append";
const GAP: &str = "sio_crc32c_gap";

const ANSWERS: &[Answer] = &[Answer::Done];

pub const PART: Part = Part {
    functions: &[Function::new(CRC32C, ANSWERS), Function::new(APPEND, ANSWERS), Function::new(GAP, ANSWERS)],
    sweep,
    round,
};

/// The lengths from which the reference computes three streams at once.
const STREAMS: [usize; 2] = [3 * 256, 3 * 8192];

const AROUND: usize = 9;

fn sweep(run: &mut Run) -> Checked {
    tiny_inputs(run)?;
    lengths_and_alignments(run)?;
    around_streams(run)?;
    every_split(run)?;
    short_gaps(run)?;
    long_gaps(run)?;
    overlapping_gaps(run)
}

fn round(run: &mut Run) -> Checked {
    let len = random_len(run);
    both_functions(run, len)?;
    let len = random_len(run);
    let split = run.rng.below(len + 1);
    split_at(run, len, split)?;
    let lens = [random_len(run), random_len(run), random_len(run)];
    gap(run, lens)
}

/// All inputs of 0 to 2 bytes.
fn tiny_inputs(run: &mut Run) -> Checked {
    tiny_input(run, &[])?;
    for first in 0..=255 {
        tiny_input(run, &[first])?;
        for second in 0..=255 {
            tiny_input(run, &[first, second])?;
        }
    }
    Ok(())
}

fn tiny_input(run: &mut Run, content: &[u8]) -> Checked {
    let bytes = Lent::new(&mut run.rng, content, 0);
    compare_crc32c(run, &bytes)?;
    for crc in [0, 1, u32::MAX, run.rng.next() as u32] {
        compare_append(run, crc, &bytes, None)?;
    }
    Ok(())
}

fn lengths_and_alignments(run: &mut Run) -> Checked {
    for len in 0..=300 {
        for shift in 0..8 {
            let content = run.rng.bytes(len);
            let bytes = Lent::new(&mut run.rng, &content, shift);
            compare_crc32c(run, &bytes)?;
            let crc = u32::random(&mut run.rng);
            compare_append(run, crc, &bytes, None)?;
        }
    }
    Ok(())
}

fn around_streams(run: &mut Run) -> Checked {
    for streams in STREAMS {
        for len in streams - AROUND..=streams + AROUND {
            both_functions(run, len)?;
        }
    }
    Ok(())
}

fn every_split(run: &mut Run) -> Checked {
    for len in 0..=40 {
        for split in 0..=len {
            split_at(run, len, split)?;
        }
    }
    Ok(())
}

fn short_gaps(run: &mut Run) -> Checked {
    for head in 0..=20 {
        for zeros in 0..=20 {
            for tail in 0..=20 {
                gap(run, [head, zeros, tail])?;
            }
        }
    }
    Ok(())
}

fn long_gaps(run: &mut Run) -> Checked {
    for zeros in [255, 256, 767, 768, 769, 4096, 24_576, 65_536, 1_000_003] {
        gap(run, [0, zeros, 0])?;
        gap(run, [9, zeros, 21])?;
    }
    Ok(())
}

/// Head and tail may be the same bytes, since neither is written.
fn overlapping_gaps(run: &mut Run) -> Checked {
    for len in 0..=20 {
        for zeros in 0..=20 {
            let bytes = Lent::random(&mut run.rng, len);
            compare_gap(run, &bytes, zeros, &bytes)?;
        }
    }
    Ok(())
}

/// Short for the most part, sometimes around the sizes of the reference's streams.
fn random_len(run: &mut Run) -> usize {
    let rng = &mut run.rng;
    match rng.below(256) {
        0 => STREAMS[1] - AROUND + rng.below(2 * AROUND + 1),
        1..=15 => STREAMS[0] - AROUND + rng.below(2 * AROUND + 1),
        16..=79 => rng.below(301),
        _ => rng.below(41),
    }
}

fn both_functions(run: &mut Run, len: usize) -> Checked {
    let bytes = Lent::random(&mut run.rng, len);
    compare_crc32c(run, &bytes)?;
    let crc = u32::random(&mut run.rng);
    compare_append(run, crc, &bytes, None)
}

/// The checksum of the first bytes carried on over the others.
fn split_at(run: &mut Run, len: usize, split: usize) -> Checked {
    let whole = run.rng.bytes(len);
    let shift = run.rng.below(8);
    let rest = Lent::new(&mut run.rng, &whole[split..], shift);
    compare_append(run, crc32c(&whole[..split]), &rest, Some(crc32c(&whole)))
}

fn gap(run: &mut Run, [head, zeros, tail]: [usize; 3]) -> Checked {
    let head = Lent::random(&mut run.rng, head);
    let tail = Lent::random(&mut run.rng, tail);
    compare_gap(run, &head, zeros, &tail)
}

fn compare_crc32c(run: &mut Run, bytes: &Lent) -> Checked {
    let found = ffi::crc32c(bytes.cells());
    let expected = [("crc32c", crc32c(bytes.expected())), ("portable", portable::crc32c(bytes.expected()))];
    compare(run, CRC32C, found, &expected, &[("bytes", bytes)], Vec::new)
}

/// `whole` is the checksum of all bytes where `crc` is that of the bytes before these.
fn compare_append(run: &mut Run, crc: u32, bytes: &Lent, whole: Option<u32>) -> Checked {
    let found = ffi::crc32c_append(crc, bytes.cells());
    let appended = crc32c_append(crc, bytes.expected());
    let expected = [
        ("crc32c_append", appended),
        ("portable", portable::crc32c_append(crc, bytes.expected())),
        ("crc32c of the joined bytes", whole.unwrap_or(appended)),
    ];
    compare(run, APPEND, found, &expected, &[("bytes", bytes)], || vec![("crc", number(crc))])
}

fn compare_gap(run: &mut Run, head: &Lent, zeros: usize, tail: &Lent) -> Checked {
    let found = ffi::crc32c_gap(head.cells(), zeros, tail.cells());
    let gap = vec![0; zeros];
    let joined = [head.expected(), &gap, tail.expected()].concat();
    let appended = crc32c_append(0, head.expected());
    let appended = crc32c_append(appended, &gap);
    let appended = crc32c_append(appended, tail.expected());
    let expected = [
        ("crc32c of the joined bytes", crc32c(&joined)),
        ("three appends", appended),
        ("portable", portable::crc32c(&joined)),
    ];
    let lent = [("head", head), ("tail", tail)];
    compare(run, GAP, found, &expected, &lent, || vec![("zeros", number(zeros))])
}

/// Every expected checksum is the found one, and the lent buffers are as they were.
fn compare(
    run: &mut Run,
    function: &'static str,
    found: u32,
    expected: &[(&'static str, u32)],
    lent: &[(&'static str, &Lent)],
    numbers: impl FnOnce() -> Fields,
) -> Checked {
    let equal = expected.iter().all(|(_, value)| *value == found) && lent.iter().all(|(_, buffer)| buffer.holds());
    run.case(function, Answer::Done, equal, || {
        let mut report = Report { inputs: numbers(), expected: Vec::new(), found: vec![("checksum", number(found))] };
        for (name, value) in expected {
            report.expected.push((name, number(*value)));
        }
        for (name, buffer) in lent {
            report.inputs.push((name, buffer.before_text()));
            report.expected.push((name, buffer.expected_text()));
            report.found.push((name, buffer.found_text()));
        }
        report
    })
}
