//! Compares the functions of libstore_io.a with the Rust reference, tries cut writes and histories of writes on them, and
//! measures both.

#[path = "../../docs/src/crates/store-io-format/src/codec.rs"]
#[allow(dead_code)]
#[rustfmt::skip]
mod codec;
#[path = "../../docs/src/crates/store-io-format/src/crc32c.rs"]
#[allow(dead_code)]
#[rustfmt::skip]
mod crc32c;
#[path = "../../docs/src/crates/store-io-format/src/judge.rs"]
#[allow(dead_code)]
#[rustfmt::skip]
mod judge;
#[path = "../../docs/src/crates/store-io-format/src/meta.rs"]
#[allow(dead_code)]
#[rustfmt::skip]
mod meta;
#[path = "../../docs/src/crates/store-io-format/src/meta2.rs"]
#[allow(dead_code)]
#[rustfmt::skip]
mod meta2;
#[path = "../../docs/src/crates/store-io-format/src/pair.rs"]
#[allow(dead_code)]
#[rustfmt::skip]
mod pair;
#[path = "../../docs/src/crates/store-io-format/src/slot.rs"]
#[allow(dead_code)]
#[rustfmt::skip]
mod slot;

mod answers;
mod bench;
mod bench_judge;
mod bench_meta;
mod bench_pairs;
mod bench_plan;
mod bench_slots;
mod bytestep;
mod checksum;
mod counts;
mod creation;
mod creation_answers;
mod creation_outcomes;
mod creation_slots;
mod creation_steps;
mod cursor;
mod cut_outcomes;
mod cut_records;
mod cut_store;
mod cuts;
mod cutting;
mod encoding;
mod entries;
mod entries_sweep;
mod entry_faults;
mod entry_sample;
mod faults;
mod ffi;
mod ffi_pair;
mod ffi_plan;
mod ffi_table;
mod ffi_volume;
mod frames;
mod histories;
mod history;
mod history_hosts;
mod history_made;
mod history_marks;
mod history_outcomes;
mod history_pair;
mod history_promises;
mod history_steps;
mod history_writes;
mod implementation;
mod judge_reference;
mod judge_restated;
mod judging;
mod judging_sweep;
mod lent;
mod list;
mod list_codec;
mod list_judge;
mod list_meta;
mod list_plan;
mod list_slots;
mod meta_reference;
mod name_sample;
mod names;
mod outcome;
mod page_sample;
mod pages;
mod pages_sweep;
mod pairs;
mod part;
mod passing;
mod places;
mod plan_reference;
mod planning;
mod portable;
mod program;
mod reference;
mod rng;
mod rows;
mod sample;
mod slot_reference;
mod slots;
mod slots_sweep;
mod stored;
mod table_reference;
mod tear;
mod trials;
mod value;
mod verdicts;
mod volume_sample;
mod volumes;
mod volumes_sweep;
mod weak;
mod winners;

use counts::Counts;
use cuts::Cuts;
use histories::Histories;
use part::{Checked, Part, Run};
use rng::Rng;
use std::process::ExitCode;
use std::time::{SystemTime, UNIX_EPOCH};

/// The compared parts. A further part has a module with its `PART`, its functions in an ffi module and header.c, its
/// reference in a module above, and its cases in a list.
const PARTS: &[Part] = &[
    checksum::PART,
    cursor::PART,
    encoding::PART,
    slots::PART,
    pairs::PART,
    winners::PART,
    judging::PART,
    planning::PART,
    names::PART,
    volumes::PART,
    pages::PART,
    entries::PART,
];

const QUICK_SEED: u64 = 0x5106_2026;
const QUICK_ROUNDS: u64 = 100_000;
const LONG_ROUNDS: u64 = 1_000_000;

const QUICK_CUTS: Cuts = Cuts { ascending: 1_000_000, sectors: 40_000, weak_ascending: 240_000, weak_sectors: 40_000 };
const LONG_CUTS: Cuts =
    Cuts { ascending: 40_000_000, sectors: 12_000_000, weak_ascending: 4_000_000, weak_sectors: 4_000_000 };

const QUICK_HISTORIES: Histories = Histories { random: 50_000, weak: 80_000, made: 10_000 };
const LONG_HISTORIES: Histories = Histories { random: 1_000_000, weak: 1_000_000, made: 1_000_000 };

const QUICK_RUNS: u64 = 300;
const LONG_RUNS: u64 = 3_000;

const QUICK_LISTS: u64 = 700;
const LONG_LISTS: u64 = 7_000;

const USAGE: &str = "usage: compare quick | long [SEED] | cuts [long [SEED]] | histories [long [SEED]] | \
    verdicts PROGRAM [SEED] | rows PROGRAM [SEED] | list codec|slots|judge|plan|meta | bench";

const BAD_SEED: &str = "SEED is a number, decimal or hex with 0x";

fn main() -> ExitCode {
    let arguments: Vec<String> = std::env::args().skip(1).collect();
    let words: Vec<&str> = arguments.iter().map(String::as_str).collect();
    if ffi::version() != ffi::VERSION {
        return fail("the library has another version of the interface");
    }
    match words[..] {
        ["quick"] => compare(QUICK_SEED, QUICK_ROUNDS),
        ["long"] => compare(clock_seed(), LONG_ROUNDS),
        ["long", seed] => match parse_seed(seed) {
            Some(seed) => compare(seed, LONG_ROUNDS),
            None => fail(BAD_SEED),
        },
        ["cuts"] => cuts::run(QUICK_SEED, &QUICK_CUTS),
        ["cuts", "long"] => cuts::run(clock_seed(), &LONG_CUTS),
        ["cuts", "long", seed] => match parse_seed(seed) {
            Some(seed) => cuts::run(seed, &LONG_CUTS),
            None => fail(BAD_SEED),
        },
        ["histories"] => histories::run(QUICK_SEED, &QUICK_HISTORIES),
        ["histories", "long"] => histories::run(clock_seed(), &LONG_HISTORIES),
        ["histories", "long", seed] => match parse_seed(seed) {
            Some(seed) => histories::run(seed, &LONG_HISTORIES),
            None => fail(BAD_SEED),
        },
        ["verdicts", program] => verdicts::run(program, QUICK_SEED, QUICK_RUNS),
        ["verdicts", program, seed] => match parse_seed(seed) {
            Some(seed) => verdicts::run(program, seed, LONG_RUNS),
            None => fail(BAD_SEED),
        },
        ["rows", program] => rows::run(program, QUICK_SEED, QUICK_LISTS),
        ["rows", program, seed] => match parse_seed(seed) {
            Some(seed) => rows::run(program, seed, LONG_LISTS),
            None => fail(BAD_SEED),
        },
        ["list", "codec"] => list::print(list_codec::fill),
        ["list", "slots"] => list::print(list_slots::fill),
        ["list", "judge"] => list::print(list_judge::fill),
        ["list", "plan"] => list::print(list_plan::fill),
        ["list", "meta"] => list::print(list_meta::fill),
        ["bench"] => bench::run(),
        _ => fail(USAGE),
    }
}

fn fail(message: &str) -> ExitCode {
    eprintln!("{message}");
    ExitCode::FAILURE
}

fn clock_seed() -> u64 {
    let since = SystemTime::now().duration_since(UNIX_EPOCH);
    since.map_or(0, |duration| duration.as_nanos() as u64)
}

fn parse_seed(text: &str) -> Option<u64> {
    match text.strip_prefix("0x") {
        Some(digits) => u64::from_str_radix(digits, 16).ok(),
        None => text.parse().ok(),
    }
}

fn compare(seed: u64, rounds: u64) -> ExitCode {
    println!("seed {seed:#x}");
    let functions = PARTS.iter().flat_map(|part| part.functions);
    let mut run = Run { rng: Rng::new(seed), counts: Counts::new(functions) };
    if let Err(mismatch) = all_parts(&mut run, rounds) {
        print!("{mismatch}");
        return ExitCode::FAILURE;
    }
    run.counts.print();
    let faults = run.counts.faults(rounds);
    if !faults.is_empty() {
        println!("fault of the driver:\n{}", faults.join("\n"));
        return ExitCode::FAILURE;
    }
    println!("seed {seed:#x}");
    println!("compare: {} cases, all equal", run.counts.total());
    ExitCode::SUCCESS
}

fn all_parts(run: &mut Run, rounds: u64) -> Checked {
    for part in PARTS {
        (part.sweep)(run)?;
        for _ in 0..rounds {
            (part.round)(run)?;
        }
    }
    Ok(())
}
