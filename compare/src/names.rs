//! Compares region names with the reference's meta.rs.

use crate::counts::{Answer, Function};
use crate::ffi_volume as ffi;
use crate::lent::{Lent, LentCell};
use crate::meta_reference::{self as reference, Names};
use crate::name_sample::{
    padded, random_bytes, random_name, random_stored, BAD_RUNS, EDGE_CHARACTERS, FAULTS, NAME_MAX,
};
use crate::outcome::{count_other, filled, kept, Call};
use crate::part::{Checked, Part, Run};
use crate::places::places;

const NAME: &str = "sio_region_name";
const PADDED: &str = "sio_region_name_padded";
const NAME_OTHER: &str = "sio_region_name: the Rust's other answer";
const PADDED_OTHER: &str = "sio_region_name_padded: the Rust's other answer";
const PLACE: &str = "sio_region_name: refused for";

const ANSWERS: &[Answer] = &[Answer::Done, Answer::Refusal(reference::NAME)];
/// What the Rust answers of a name that is not printable.
const OTHERS: &[Answer] = &[Answer::Done];

const PLACES: [Answer; FAULTS.len()] = places(FAULTS);

pub const PART: Part = Part {
    functions: &[
        Function::new(NAME, ANSWERS),
        Function::new(PADDED, ANSWERS),
        Function::part(NAME_OTHER, OTHERS),
        Function::part(PADDED_OTHER, OTHERS),
        Function::part(PLACE, &PLACES),
    ],
    sweep,
    round,
};

/// Bytes on both sides of every limit that a byte after the lead has.
const BEHIND_LEAD: [u8; 8] = [0x00, 0x41, 0x7f, 0x80, 0x8f, 0xbf, 0xc0, 0xff];

const REPEATS: usize = 200;

fn sweep(run: &mut Run) -> Checked {
    lengths(run)?;
    one_and_two_bytes(run)?;
    three_and_four_bytes(run)?;
    every_position(run)?;
    single_bytes(run)?;
    zeros(run)?;
    single_faults(run)
}

fn round(run: &mut Run) -> Checked {
    let name = random_bytes(&mut run.rng);
    compare_name(run, &name)?;
    let stored = random_stored(&mut run.rng);
    compare_padded(run, stored)
}

/// As a name, and as far as it goes into 24 bytes as a stored one.
fn compare_both(run: &mut Run, name: &[u8]) -> Checked {
    compare_name(run, name)?;
    compare_padded(run, padded(name))
}

fn lengths(run: &mut Run) -> Checked {
    for len in (0..=2 * NAME_MAX).chain([255, 256, 257, 280, 65_536, 65_560]) {
        compare_both(run, &vec![b'a'; len])?;
    }
    Ok(())
}

/// All of them, alone and at the end of 24 bytes.
fn one_and_two_bytes(run: &mut Run) -> Checked {
    let before = [b'a'; NAME_MAX - 2];
    for first in 0..=255 {
        compare_both(run, &[first])?;
        compare_both(run, &[&before[..], &[b'a', first]].concat())?;
        for second in 0..=255 {
            compare_both(run, &[first, second])?;
            compare_both(run, &[&before[..], &[first, second]].concat())?;
        }
    }
    Ok(())
}

/// Every second byte after every lead, and the others at their limits.
fn three_and_four_bytes(run: &mut Run) -> Checked {
    for first in 0xe0..=0xff {
        for second in 0..=255 {
            for third in BEHIND_LEAD {
                compare_both(run, &[first, second, third])?;
                for fourth in BEHIND_LEAD {
                    compare_both(run, &[first, second, third, fourth])?;
                }
            }
        }
    }
    Ok(())
}

/// Characters at their edges and runs that are none, at every place of names of every length.
fn every_position(run: &mut Run) -> Checked {
    let mut runs: Vec<Vec<u8>> = EDGE_CHARACTERS.iter().map(|edge| edge.to_string().into_bytes()).collect();
    runs.extend(BAD_RUNS.concat().iter().map(|bytes| bytes.to_vec()));
    for bytes in runs {
        for before in 0..=NAME_MAX {
            for behind in 0..=NAME_MAX + 2 - before {
                compare_both(run, &[&vec![b'a'; before][..], &bytes, &vec![b'z'; behind]].concat())?;
            }
        }
    }
    Ok(())
}

/// Each byte below 80 at every place of a name of every length.
fn single_bytes(run: &mut Run) -> Checked {
    for len in 1..=NAME_MAX + 1 {
        for at in 0..len {
            for byte in 0..0x80 {
                let mut name = vec![b'a'; len];
                name[at] = byte;
                compare_both(run, &name)?;
            }
        }
    }
    Ok(())
}

/// After the first zero of a stored name one other byte.
fn zeros(run: &mut Run) -> Checked {
    for len in 1..=NAME_MAX + 1 {
        for at in 0..len {
            let name = vec![b'a'; at];
            for byte in [1, 0x7f, 0x80, 0xff] {
                let mut stored = padded(&name);
                stored[(len - 1).min(NAME_MAX - 1)] = byte;
                compare_padded(run, stored)?;
            }
        }
    }
    compare_padded(run, [0; NAME_MAX])
}

fn single_faults(run: &mut Run) -> Checked {
    for fault in FAULTS {
        for _ in 0..REPEATS {
            let mut name = random_name(&mut run.rng);
            compare_both(run, &name)?;
            (fault.make)(&mut name, &mut run.rng);
            fault.count(run, PLACE, &reference::region_name(&name, Names::Printable));
            compare_both(run, &name)?;
        }
    }
    Ok(())
}

fn compare_name(run: &mut Run, name: &[u8]) -> Checked {
    let lent = Lent::holding(&mut run.rng, name);
    let stored = LentCell::random(&mut run.rng);
    let stored_len = LentCell::random(&mut run.rng);
    let expected = reference::region_name(name, Names::Printable);
    count_other(run, NAME_OTHER, &expected, &reference::region_name(name, Names::Any));
    let found = ffi::region_name(lent.cells(), stored.cell(), stored_len.cell());
    Call::new(NAME, &expected, found).compare(
        run,
        &[
            ("name", &lent),
            ("stored cell", &filled(&stored, &expected, |name| name.0)),
            ("stored_len cell", &filled(&stored_len, &expected, |name| name.1)),
        ],
        Vec::new,
    )
}

fn compare_padded(run: &mut Run, raw: [u8; NAME_MAX]) -> Checked {
    let lent = LentCell::holding(&mut run.rng, raw);
    let stored = LentCell::random(&mut run.rng);
    let stored_len = LentCell::random(&mut run.rng);
    let expected = reference::region_name_padded(raw, Names::Printable);
    count_other(run, PADDED_OTHER, &expected, &reference::region_name_padded(raw, Names::Any));
    let found = ffi::region_name_padded(lent.cell(), stored.cell(), stored_len.cell());
    Call::new(PADDED, &expected, found).compare(
        run,
        &[
            ("raw cell", &kept(&lent)),
            ("stored cell", &filled(&stored, &expected, |name| name.0)),
            ("stored_len cell", &filled(&stored_len, &expected, |name| name.1)),
        ],
        Vec::new,
    )
}
