//! Compares the decision on a pair with the reference's pair.rs.

use crate::counts::{Answer, Function};
use crate::ffi::{self, Side};
use crate::lent::LentCell;
use crate::part::{number, Checked, Fields, Part, Report, Run};
use crate::rng::Rng;
use crate::slot_reference;

const DECIDE: &str = "sio_decide";

const STATUS_ABOVE_12: u32 = 10;

pub const DECISIONS: &[Answer] = &[
    Answer::Decision("Confirmed A"),
    Answer::Decision("Confirmed A, gap"),
    Answer::Decision("Confirmed A, break"),
    Answer::Decision("Confirmed B"),
    Answer::Decision("Confirmed B, gap"),
    Answer::Decision("Confirmed B, break"),
    Answer::Decision("Unconfirmed A"),
    Answer::Decision("Unconfirmed B"),
    Answer::Decision("Lost"),
    Answer::Decision("Refused"),
    Answer::Decision("Empty"),
    Answer::Decision("Fork"),
];

pub const PART: Part = Part {
    functions: &[Function::new(DECIDE, DECISIONS), Function::new(DECIDE, &[Answer::Refusal(STATUS_ABOVE_12)])],
    sweep,
    round,
};

const VALID: u32 = 12;

/// All statuses, and numbers that are none: the next ones, and Valid in the low bits only.
const STATUSES: [u32; 21] =
    [0, 1, 2, 3, 4, 5, 6, 7, 8, 9, 10, 11, 12, 13, 14, 255, 0x100, 0x10c, 0x1_000c, 0x8000_000c, u32::MAX];

const GENERATIONS: [u64; 13] = [
    0,
    1,
    2,
    3,
    5,
    (1 << 32) - 1,
    1 << 32,
    (1 << 32) + 1,
    (1 << 63) - 1,
    1 << 63,
    (1 << 63) + 1,
    u64::MAX - 1,
    u64::MAX,
];

/// Which sides record the other's checksum: A, B.
const LINKS: [(bool, bool); 4] = [(false, false), (false, true), (true, false), (true, true)];

fn sweep(run: &mut Run) -> Checked {
    for a_status in STATUSES {
        for b_status in STATUSES {
            for a_generation in GENERATIONS {
                for b_generation in GENERATIONS {
                    every_link(run, (a_status, a_generation), (b_status, b_generation))?;
                }
            }
        }
    }
    broken_links(run)
}

fn every_link(run: &mut Run, a: (u32, u64), b: (u32, u64)) -> Checked {
    for links in LINKS {
        let (a, b) = linked(&mut run.rng, a, b, links);
        compare(run, &a, &b)?;
    }
    Ok(())
}

/// Consecutive generations whose checksums differ in one bit.
fn broken_links(run: &mut Run) -> Checked {
    for bit in 0..32 {
        for generation in [1, 2, u64::MAX - 1] {
            let older = (VALID, generation);
            let newer = (VALID, generation + 1);
            let (mut a, b) = linked(&mut run.rng, newer, older, (true, true));
            a.prev_header_crc32c ^= 1 << bit;
            compare(run, &a, &b)?;
            compare(run, &b, &a)?;
        }
    }
    Ok(())
}

fn linked(rng: &mut Rng, a: (u32, u64), b: (u32, u64), (a_links, b_links): (bool, bool)) -> (Side, Side) {
    let mut a = random_side(rng, a);
    let mut b = random_side(rng, b);
    if a_links {
        a.prev_header_crc32c = b.header_crc32c;
    }
    if b_links {
        b.prev_header_crc32c = a.header_crc32c;
    }
    (a, b)
}

fn random_side(rng: &mut Rng, (status, generation): (u32, u64)) -> Side {
    Side { status, generation, header_crc32c: rng.any() as u32, prev_header_crc32c: rng.any() as u32 }
}

/// Often both Valid and one generation apart.
fn round(run: &mut Run) -> Checked {
    let rng = &mut run.rng;
    let a = (random_status(rng), rng.any());
    let b = (random_status(rng), random_neighbour(rng, a.1));
    let links = rng.pick(&LINKS);
    let (a, b) = linked(rng, a, b, links);
    compare(run, &a, &b)
}

fn random_status(rng: &mut Rng) -> u32 {
    match rng.below(16) {
        0 => rng.next() as u32,
        1..=5 => rng.pick(&STATUSES),
        _ => VALID,
    }
}

pub fn random_neighbour(rng: &mut Rng, generation: u64) -> u64 {
    match rng.below(8) {
        0 => rng.any(),
        1 => generation,
        2 => generation.wrapping_add(2),
        3..=4 => generation.wrapping_sub(1),
        _ => generation.wrapping_add(1),
    }
}

fn compare(run: &mut Run, a: &Side, b: &Side) -> Checked {
    let report = LentCell::random(&mut run.rng);
    let expected = slot_reference::decide(a, b);
    let expected_refusal = if expected.is_some() { 0 } else { STATUS_ABOVE_12 };
    let refusal = ffi::decide(a, b, report.cell());
    let equal = refusal == expected_refusal && report.holds(expected);
    run.case(DECIDE, answer(expected), equal, || Report {
        inputs: inputs(a, b),
        expected: vec![("refusal", number(expected_refusal)), ("report cell", report.expected_text(expected))],
        found: vec![("refusal", number(refusal)), ("report cell", report.found_text())],
    })
}

fn answer(report: Option<[u8; 5]>) -> Answer {
    match report {
        Some([kind, winner, gap, broken, _]) => decision([kind, winner, gap, broken]),
        None => Answer::Refusal(STATUS_ABOVE_12),
    }
}

/// The answer of a report's kind, winner, gap and break.
pub fn decision(report: [u8; 4]) -> Answer {
    Answer::Decision(match report {
        [0, 1, 0, 0] => "Confirmed A",
        [0, 1, 1, 0] => "Confirmed A, gap",
        [0, 1, 0, 1] => "Confirmed A, break",
        [0, 2, 0, 0] => "Confirmed B",
        [0, 2, 1, 0] => "Confirmed B, gap",
        [0, 2, 0, 1] => "Confirmed B, break",
        [1, 1, ..] => "Unconfirmed A",
        [1, 2, ..] => "Unconfirmed B",
        [2, ..] => "Lost",
        [3, ..] => "Refused",
        [4, ..] => "Empty",
        [5, ..] => "Fork",
        _ => panic!("the reference gives a report of no known form: {report:?}"),
    })
}

fn inputs(a: &Side, b: &Side) -> Fields {
    vec![
        ("a_status", number(a.status)),
        ("a_generation", number(a.generation)),
        ("a_header_crc32c", number(a.header_crc32c)),
        ("a_prev_header_crc32c", number(a.prev_header_crc32c)),
        ("b_status", number(b.status)),
        ("b_generation", number(b.generation)),
        ("b_header_crc32c", number(b.header_crc32c)),
        ("b_prev_header_crc32c", number(b.prev_header_crc32c)),
    ]
}
