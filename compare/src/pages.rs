//! Compares the decoding and encoding of table pages with the reference's meta2.rs.

use crate::counts::{Answer, Function};
use crate::ffi_table::{self as ffi, Header};
use crate::lent::{Lent, LentCell};
use crate::outcome::{filled, Call};
use crate::page_sample::{random_count, written_page, Page, ENTRY, FAULTS, PAGE_HEADER};
use crate::pages_sweep::sweep;
use crate::part::{number, Checked, Part, Run};
use crate::places::places;
use crate::rng::Rng;
use crate::stored::flip_in;
use crate::table_reference as reference;

const DECODE: &str = "sio_decode_page";
const ENCODE: &str = "sio_encode_page";
pub const PLACE: &str = "sio_decode_page: refused for";
pub const ENCODE_PLACE: &str = "sio_encode_page: refused for";

const DECODING: &[Answer] = &[
    Answer::Done,
    Answer::Refusal(11),
    Answer::Refusal(12),
    Answer::Refusal(22),
    Answer::Refusal(29),
    Answer::Refusal(30),
    Answer::Refusal(31),
];
const ENCODING: &[Answer] = &[Answer::Done, Answer::Refusal(11), Answer::Refusal(30)];

const PLACES: [Answer; FAULTS.len()] = places(FAULTS);

pub const MANY: &str = "over 65,535 entries";
pub const REST: &str = "a rest below 96 bytes";
pub const COUNT: &str = "count";
pub const SHORT: &str = "buffer too short";

const ENCODE_PLACES: &[Answer] =
    &[Answer::Decision(MANY), Answer::Decision(REST), Answer::Decision(COUNT), Answer::Decision(SHORT)];

pub const PART: Part = Part {
    functions: &[
        Function::new(DECODE, DECODING),
        Function::new(ENCODE, ENCODING),
        Function::part(PLACE, &PLACES),
        Function::part(ENCODE_PLACE, ENCODE_PLACES),
    ],
    sweep,
    round,
};

/// A page to write into a buffer of `len` random bytes.
pub struct Encoding {
    pub len: usize,
    pub header: Header,
    pub entries: Vec<u8>,
}

impl Encoding {
    /// Written into a buffer of the page's length.
    pub fn new(rng: &mut Rng, entries: Vec<u8>) -> Self {
        let count = (entries.len() / ENTRY) as u16;
        let header = Header { page_index: rng.any() as u32, next_seq: rng.any() as u32, count };
        Self { len: PAGE_HEADER + entries.len(), header, entries }
    }
}

fn round(run: &mut Run) -> Checked {
    let page = random_page(&mut run.rng);
    compare_decode(run, &page)?;
    let encoding = random_encoding(&mut run.rng);
    compare_encode(run, &encoding)
}

fn random_page(rng: &mut Rng) -> Page {
    let n = random_count(rng);
    let mut page = written_page(rng, n);
    match rng.below(8) {
        0 => (),
        1 => page.bytes = rng.bytes(page.bytes.len()),
        2 => {
            for _ in 0..=rng.below(3) {
                let all = 0..page.bytes.len();
                flip_in(rng, &mut page.bytes, all);
            }
        }
        3 => {
            for _ in 0..n {
                few_numbers(rng, &mut page);
            }
        }
        _ => {
            for _ in 0..=rng.below(3) {
                let fault = &FAULTS[rng.below(FAULTS.len())];
                (fault.make)(&mut page, rng);
            }
        }
    }
    page
}

/// Gives an entry a small number, so that numbers meet.
fn few_numbers(rng: &mut Rng, page: &mut Page) {
    let n = page.entries();
    let entry = rng.below(n);
    let seq = rng.below(2 * n + 2) as u64;
    page.set_seq(entry, seq);
}

fn random_encoding(rng: &mut Rng) -> Encoding {
    let entries = random_count(rng) * ENTRY;
    let rest = if rng.one_in(16) { 1 + rng.below(ENTRY - 1) } else { 0 };
    let entries = rng.bytes(entries + rest);
    let mut encoding = Encoding::new(rng, entries);
    if rng.one_in(8) {
        encoding.header.count ^= 1 << rng.below(16);
    }
    match rng.below(8) {
        0 => encoding.len -= 1,
        1 => encoding.len = rng.below(encoding.len),
        2 => encoding.len += 1 + rng.below(2 * ENTRY),
        _ => (),
    }
    encoding
}

pub fn compare_decode(run: &mut Run, page: &Page) -> Checked {
    let Page { bytes, page_index, max_entries } = page;
    let lent = Lent::holding(&mut run.rng, bytes);
    let cell = LentCell::random(&mut run.rng);
    let expected = reference::decode_page(bytes, *page_index, *max_entries);
    let found = ffi::decode_page(lent.cells(), *page_index, *max_entries, cell.cell());
    let filled = filled(&cell, &expected, |numbers| *numbers);
    Call::new(DECODE, &expected, found).compare(run, &[("bytes", &lent), ("found cell", &filled)], || {
        vec![("page_index", number(*page_index)), ("max_entries", number(*max_entries))]
    })
}

pub fn compare_encode(run: &mut Run, encoding: &Encoding) -> Checked {
    let Encoding { len, header, entries } = encoding;
    let mut bytes = Lent::random(&mut run.rng, *len);
    let lent = Lent::holding(&mut run.rng, entries);
    let written = LentCell::random(&mut run.rng);
    let expected = reference::encode_page(bytes.expected_mut(), header, entries);
    let found = ffi::encode_page(bytes.cells(), header, lent.cells(), written.cell());
    let filled = filled(&written, &expected, |len| *len);
    let call = Call::new(ENCODE, &expected, found);
    call.compare(run, &[("bytes", &bytes), ("entries", &lent), ("written cell", &filled)], || {
        vec![
            ("page_index", number(header.page_index)),
            ("next_seq", number(header.next_seq)),
            ("count", number(header.count)),
        ]
    })
}
