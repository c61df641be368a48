//! Region names of random characters, and bytes that are no names.

use crate::meta_reference::NAME;
use crate::places::Fault;
use crate::rng::Rng;

pub const NAME_MAX: usize = 24;

/// Characters at the edges of each length in bytes, of one byte the printable ones.
pub const EDGE_CHARACTERS: [char; 10] =
    [' ', '~', '\u{80}', '\u{7ff}', '\u{800}', '\u{d7ff}', '\u{e000}', '\u{ffff}', '\u{10000}', '\u{10ffff}'];

/// Characters of two, three and four bytes cut short, without a byte that belongs after them.
const CUT_SHORT: [&[u8]; 11] = [
    &[0xc2],
    &[0xdf],
    &[0xe0],
    &[0xe2, 0x82],
    &[0xef, 0xbf],
    &[0xf0],
    &[0xf0, 0x9f],
    &[0xf0, 0x9f, 0x92],
    &[0xf4, 0x8f, 0xbf],
    &[0xe2, 0x82, 0x41],
    &[0xf0, 0x9f, 0x92, 0x41],
];
const WITHOUT_LEAD: [&[u8]; 4] = [&[0x80], &[0xbf], &[0x80, 0x80], &[0xc2, 0x80, 0x80]];
const SURROGATES: [&[u8]; 4] =
    [&[0xed, 0xa0, 0x80], &[0xed, 0xbf, 0xbf], &[0xed, 0xaf, 0xbf], &[0xed, 0xa0, 0xbd, 0xed, 0xb2, 0xa9]];
const OVERLONG: [&[u8]; 7] = [
    &[0xc0, 0x80],
    &[0xc1, 0xbf],
    &[0xc0, 0xaf],
    &[0xe0, 0x80, 0x80],
    &[0xe0, 0x9f, 0xbf],
    &[0xf0, 0x80, 0x80, 0x80],
    &[0xf0, 0x8f, 0xbf, 0xbf],
];
const TOO_LARGE: [&[u8]; 6] = [
    &[0xf4, 0x90, 0x80, 0x80],
    &[0xf5, 0x80, 0x80, 0x80],
    &[0xf7, 0xbf, 0xbf, 0xbf],
    &[0xf8, 0x88, 0x80, 0x80, 0x80],
    &[0xfe],
    &[0xff],
];

/// Characters of one byte that are not printable.
const UNPRINTABLE: [&[u8]; 6] = [&[0x01], &[0x09], &[0x0a], &[0x1b], &[0x1f], &[0x7f]];

/// Runs of bytes that are no characters.
pub const BAD_RUNS: [&[&[u8]]; 5] = [&CUT_SHORT, &WITHOUT_LEAD, &SURROGATES, &OVERLONG, &TOO_LARGE];

pub const FAULTS: &[Fault<Vec<u8>>] = &[
    Fault::new("no bytes", NAME, |name, _| name.clear()),
    Fault::new("25 bytes", NAME, |name, _| name.resize(NAME_MAX + 1, b'a')),
    Fault::new("more than 25 bytes", NAME, |name, rng| name.resize(26 + rng.below(300), b'a')),
    Fault::new("a zero first", NAME, |name, _| insert_at(name, 0, &[0])),
    Fault::new("a zero last", NAME, |name, _| insert_at(name, NAME_MAX, &[0])),
    Fault::new("a zero", NAME, |name, rng| insert_one(name, rng, &[&[0]])),
    Fault::new("an unprintable byte first", NAME, |name, rng| insert_at(name, 0, rng.pick(&UNPRINTABLE))),
    Fault::new("an unprintable byte last", NAME, |name, rng| insert_at(name, NAME_MAX, rng.pick(&UNPRINTABLE))),
    Fault::new("an unprintable byte", NAME, |name, rng| insert_unprintable(name, rng)),
    Fault::new("cut short", NAME, |name, rng| insert_one(name, rng, &CUT_SHORT)),
    Fault::new("without lead", NAME, |name, rng| insert_one(name, rng, &WITHOUT_LEAD)),
    Fault::new("surrogate", NAME, |name, rng| insert_one(name, rng, &SURROGATES)),
    Fault::new("overlong", NAME, |name, rng| insert_one(name, rng, &OVERLONG)),
    Fault::new("above 10FFFF", NAME, |name, rng| insert_one(name, rng, &TOO_LARGE)),
];

/// Puts a run of bytes that are no character into a name.
pub fn insert_bad_run(name: &mut Vec<u8>, rng: &mut Rng) {
    let runs = rng.pick(&BAD_RUNS);
    insert_one(name, rng, runs);
}

/// Puts a byte that is not printable into a name.
pub fn insert_unprintable(name: &mut Vec<u8>, rng: &mut Rng) {
    insert_one(name, rng, &UNPRINTABLE);
}

fn insert_one(name: &mut Vec<u8>, rng: &mut Rng, choices: &[&[u8]]) {
    let bytes = rng.pick(choices);
    let at = rng.between(0, name.len() as u64) as usize;
    insert_at(name, at, bytes);
}

/// Puts bytes before a character of a name; characters at its end are left out where it gets too long.
fn insert_at(name: &mut Vec<u8>, at: usize, bytes: &[u8]) {
    let begins = |name: &[u8], at: usize| !name.get(at).is_some_and(|byte| byte & 0xc0 == 0x80);
    let place = |name: &[u8], at: usize| (0..=at.min(name.len())).rev().find(|at| begins(name, *at)).unwrap_or(0);
    name.truncate(place(name, NAME_MAX - bytes.len()));
    let at = place(name, at);
    name.splice(at..at, bytes.iter().copied());
}

/// A name of 1 to 24 bytes.
pub fn random_name(rng: &mut Rng) -> Vec<u8> {
    let len = rng.between(1, NAME_MAX as u64) as usize;
    let mut name = String::new();
    while name.len() < len {
        let character = random_character(rng);
        // The last bytes are often too few for the character.
        name.push(if name.len() + character.len_utf8() > len { 'z' } else { character });
    }
    name.into_bytes()
}

/// Of one to four bytes, each about as often as the others.
fn random_character(rng: &mut Rng) -> char {
    if rng.one_in(4) {
        return rng.pick(&EDGE_CHARACTERS);
    }
    let (low, high) = rng.pick(&[(0x20, 0x7e), (0x61, 0x7a), (0x80, 0x7ff), (0x800, 0xffff), (0x1_0000, 0x10_ffff)]);
    let number = rng.between(low, high) as u32;
    char::from_u32(number).unwrap_or('\u{d7ff}')
}

/// Now and then a name, else bytes that may be none.
pub fn random_bytes(rng: &mut Rng) -> Vec<u8> {
    let mut name = random_name(rng);
    match rng.below(8) {
        0 | 1 => name,
        2 => {
            let len = rng.below(NAME_MAX + 9);
            rng.bytes(len)
        }
        3 => {
            name.truncate(rng.below(name.len() + 1));
            name
        }
        4 => {
            let at = rng.below(name.len());
            name[at] ^= 1 << rng.below(8);
            name
        }
        5 => {
            name.extend(random_name(rng));
            name
        }
        _ => {
            let fault = &FAULTS[rng.below(FAULTS.len())];
            (fault.make)(&mut name, rng);
            name
        }
    }
}

/// The first 24 bytes, with zeros after fewer.
pub fn padded(name: &[u8]) -> [u8; NAME_MAX] {
    std::array::from_fn(|at| name.get(at).copied().unwrap_or(0))
}

/// Stored bytes that may be a name or not, now and then with something after the first zero.
pub fn random_stored(rng: &mut Rng) -> [u8; NAME_MAX] {
    let mut stored = padded(&random_bytes(rng));
    if rng.one_in(4) {
        let at = rng.below(NAME_MAX);
        stored[at] = rng.pick(&[0, 0, 1, b'a', 0x80, 0xff]);
    }
    stored
}
