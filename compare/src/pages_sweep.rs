//! Every case of a small range of table pages.

use crate::counts::Answer;
use crate::outcome::refusal;
use crate::page_sample::{written_page, Page, COUNT, ENTRY, FAULTS, INDEX, NEXT_SEQ, PAGE_HEADER};
use crate::pages::{self, compare_decode, compare_encode, Encoding, ENCODE_PLACE, PLACE};
use crate::part::{Checked, Run};
use crate::stored::set;
use crate::table_reference as reference;

/// Entries of a page for every size of a table slot.
const FULL: [usize; 5] = [41, 83, 169, 339, 681];

const MOST_ENTRIES: usize = 65_535;

pub fn sweep(run: &mut Run) -> Checked {
    small_pages(run)?;
    accepted(run)?;
    single_faults(run)?;
    pairs_of_faults(run)?;
    every_byte(run)?;
    lengths(run)?;
    counts(run)?;
    every_duplicate(run)?;
    full_pages(run)?;
    longest_pages(run)?;
    encodings(run)?;
    encoding_lengths(run)?;
    longest_encodings(run)
}

/// All pages of up to four entries with the numbers 0, 1 and 2, each with zeros at 38 or not, under every `next_seq` from
/// 0 to 4.
fn small_pages(run: &mut Run) -> Checked {
    for n in 0..=4 {
        let mut page = written_page(&mut run.rng, n);
        for numbers in 0..6u64.pow(n as u32) {
            let mut rest = numbers;
            for entry in 0..n {
                page.set_seq(entry, rest % 3);
                page.set_zeros(entry, if rest % 6 < 3 { 0 } else { run.rng.between(1, 0xffff) });
                rest /= 6;
            }
            for next_seq in 0..=4 {
                set(&mut page.bytes, NEXT_SEQ, next_seq);
                compare_decode(run, &page)?;
            }
        }
    }
    Ok(())
}

fn accepted(run: &mut Run) -> Checked {
    for n in 0..=50 {
        for _ in 0..20 {
            let mut page = written_page(&mut run.rng, n);
            for max_entries in [page.max_entries, n as u16, 65_535] {
                page.max_entries = max_entries;
                assert!(refusal(&decoded(&page)) == 0, "the reference refuses a page");
                compare_decode(run, &page)?;
            }
        }
    }
    Ok(())
}

fn decoded(page: &Page) -> Result<[u64; 5], u32> {
    reference::decode_page(&page.bytes, page.page_index, page.max_entries)
}

fn single_faults(run: &mut Run) -> Checked {
    for fault in FAULTS {
        for n in 4..=24 {
            for _ in 0..4 {
                let mut page = written_page(&mut run.rng, n);
                (fault.make)(&mut page, &mut run.rng);
                fault.count(run, PLACE, &decoded(&page));
                compare_decode(run, &page)?;
            }
        }
    }
    Ok(())
}

/// Every two faults together, so that the order of any two checks shows.
fn pairs_of_faults(run: &mut Run) -> Checked {
    for first in FAULTS {
        for second in FAULTS {
            for n in 0..=8 {
                let mut page = written_page(&mut run.rng, n);
                (first.make)(&mut page, &mut run.rng);
                (second.make)(&mut page, &mut run.rng);
                compare_decode(run, &page)?;
            }
        }
    }
    Ok(())
}

/// Every value of every byte of a page of two entries.
fn every_byte(run: &mut Run) -> Checked {
    let page = written_page(&mut run.rng, 2);
    for at in 0..page.bytes.len() {
        for value in 0..=255 {
            let mut page = page.clone();
            page.bytes[at] = value;
            compare_decode(run, &page)?;
        }
    }
    Ok(())
}

/// Every length of a page of some entries, with its bytes, with zeros and with anything; its own index or another.
fn lengths(run: &mut Run) -> Checked {
    for n in 0..=2 {
        for len in 0..=PAGE_HEADER + 3 * ENTRY + 1 {
            let mut page = written_page(&mut run.rng, n);
            page.bytes.resize(len, 0);
            compare_decode(run, &page)?;
            compare_decode(run, &Page { page_index: page.page_index ^ 1, ..page.clone() })?;
            page.bytes = vec![0; len];
            compare_decode(run, &page)?;
            page.page_index = 0;
            compare_decode(run, &page)?;
            page.bytes = run.rng.bytes(len);
            compare_decode(run, &page)?;
        }
    }
    Ok(())
}

/// Counts beside the entries there are, the maximum and `next_seq`.
fn counts(run: &mut Run) -> Checked {
    for n in 0..=3 {
        for count in [0, 1, 2, 3, 4, 255, 256, 257, 0x7fff, 0x8000, 0xffff] {
            for max_entries in [0, 1, 2, 3, 4, 256, 0x7fff, 0x8000, 0xffff] {
                for next_seq in [0, 1, 2, 3, 4, 255, 0xffff, 0x1_0000, 0x1_0001, 0x8000_0000, u32::MAX.into()] {
                    let mut page = written_page(&mut run.rng, n);
                    page.max_entries = max_entries;
                    set(&mut page.bytes, COUNT, count);
                    set(&mut page.bytes, NEXT_SEQ, next_seq);
                    compare_decode(run, &page)?;
                }
            }
        }
    }
    for index in (0..32).map(|bit| 1u64 << bit).chain([0, u32::MAX.into()]) {
        let mut page = written_page(&mut run.rng, 1);
        set(&mut page.bytes, INDEX, index);
        compare_decode(run, &page)?;
        page.page_index = index as u32;
        compare_decode(run, &page)?;
    }
    Ok(())
}

/// Every two entries of a page with one number, alone and beside a number that is too high.
fn every_duplicate(run: &mut Run) -> Checked {
    for n in 2..=12 {
        for second in 0..n {
            for first in 0..second {
                let mut page = written_page(&mut run.rng, n);
                page.set_seq(second, page.seq(first));
                compare_decode(run, &page)?;
                for entry in 0..n {
                    let mut page = page.clone();
                    page.set_seq(entry, u32::MAX.into());
                    compare_decode(run, &page)?;
                }
            }
        }
    }
    Ok(())
}

/// Pages as full as they get, and every fault of them.
fn full_pages(run: &mut Run) -> Checked {
    for n in FULL {
        for max_entries in [n - 1, n, n + 1] {
            let mut page = written_page(&mut run.rng, n);
            page.max_entries = max_entries as u16;
            compare_decode(run, &page)?;
        }
        for fault in FAULTS {
            let mut page = written_page(&mut run.rng, n);
            (fault.make)(&mut page, &mut run.rng);
            compare_decode(run, &page)?;
        }
    }
    Ok(())
}

/// The most entries that a count can name, refused early: all of them compared with each other would take long.
fn longest_pages(run: &mut Run) -> Checked {
    let page = written_page(&mut run.rng, MOST_ENTRIES);
    for (from, to) in [(0, 1), (0, MOST_ENTRIES - 1), (2, MOST_ENTRIES - 2)] {
        let mut page = page.clone();
        page.set_seq(to, page.seq(from));
        compare_decode(run, &page)?;
    }
    let mut other_zeros = page.clone();
    other_zeros.set_zeros(1, 1);
    compare_decode(run, &other_zeros)?;
    let mut shorter = page;
    shorter.bytes.pop();
    compare_decode(run, &shorter)?;
    let page = written_page(&mut run.rng, 2048);
    compare_decode(run, &page)
}

/// Every length of a few entries, with counts and buffers around what they need.
fn encodings(run: &mut Run) -> Checked {
    for entries_len in 0..=2 * ENTRY + 1 {
        let n = (entries_len / ENTRY) as u16;
        for count in [n, n.wrapping_sub(1), n + 1, 0xffff, n + 256] {
            let needed = PAGE_HEADER + entries_len;
            for len in [needed, needed - 1, needed + 1, needed + ENTRY, 0, PAGE_HEADER - 1, PAGE_HEADER] {
                let entries = run.rng.bytes(entries_len);
                let mut encoding = Encoding::new(&mut run.rng, entries);
                encoding.header.count = count;
                encoding.len = len;
                encode_and_count(run, &encoding)?;
            }
        }
    }
    Ok(())
}

/// Every length of a buffer for pages of up to three entries, and full pages.
fn encoding_lengths(run: &mut Run) -> Checked {
    for n in 0..=3 {
        for len in 0..=PAGE_HEADER + n * ENTRY + 9 {
            let entries = run.rng.bytes(n * ENTRY);
            let encoding = Encoding { len, ..Encoding::new(&mut run.rng, entries) };
            encode_and_count(run, &encoding)?;
        }
    }
    for n in (4..=60).chain(FULL) {
        let entries = run.rng.bytes(n * ENTRY);
        let encoding = Encoding::new(&mut run.rng, entries);
        encode_and_count(run, &encoding)?;
    }
    Ok(())
}

/// As many entries as a count can name, and more: their number in 16 bits, and a room for all, or not.
fn longest_encodings(run: &mut Run) -> Checked {
    for n in [MOST_ENTRIES, MOST_ENTRIES + 1, MOST_ENTRIES + 2] {
        for short in [0, 1] {
            let entries = run.rng.bytes(n * ENTRY);
            let mut encoding = Encoding::new(&mut run.rng, entries);
            encoding.len -= short;
            encode_and_count(run, &encoding)?;
        }
    }
    let entries = run.rng.bytes((MOST_ENTRIES + 1) * ENTRY);
    let mut encoding = Encoding::new(&mut run.rng, entries);
    encoding.len = 0;
    encoding.header.count = 0xffff;
    encode_and_count(run, &encoding)
}

/// Counts the only fault of a page to write, where it has one.
fn encode_and_count(run: &mut Run, encoding: &Encoding) -> Checked {
    let Encoding { len, header, entries } = encoding;
    let (n, rest) = (entries.len() / ENTRY, entries.len() % ENTRY);
    let faults = [
        (n > MOST_ENTRIES, pages::MANY),
        (rest != 0, pages::REST),
        (header.count != n as u16, pages::COUNT),
        (*len < PAGE_HEADER + entries.len(), pages::SHORT),
    ];
    let mut found = faults.iter().filter(|(found, _)| *found);
    if let (Some((_, place)), None) = (found.next(), found.next()) {
        run.counts.add_part(ENCODE_PLACE, Answer::Decision(place));
    }
    compare_encode(run, encoding)
}
