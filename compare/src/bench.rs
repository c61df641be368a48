//! Measures the reference and ours on the same inputs: the checksum, slots written and read, stores judged, and metadata.

use crate::bench_judge;
use crate::bench_meta;
use crate::bench_pairs;
use crate::bench_plan;
use crate::bench_slots;
use crate::bytestep;
use crate::crc32c::crc32c;
use crate::ffi;
use crate::portable;
use crate::rng::Rng;
use std::cell::Cell;
use std::fs;
use std::hint::black_box;
use std::process::ExitCode;
use std::time::{Duration, Instant};

const SIZES: [usize; 8] = [0, 8, 64, 124, 384, 1024, 4096, 65_536];
const SAMPLES: usize = 31;
const SAMPLE_TIME: Duration = Duration::from_millis(4);
const SEED: u64 = 1;

/// Names of contestants; the last two of each table are compared.
pub const AS_IT_PICKS: &str = "Rust as it picks";
pub const PORTABLE: &str = "Rust portable";
pub const OURS: &str = "ours";

/// A function with inputs of some sizes, which each contestant computes.
pub struct Table<I: 'static> {
    pub title: &'static str,
    pub unit: &'static str,
    pub sizes: &'static [usize],
    pub input: fn(&mut Rng, usize) -> I,
    pub contestants: &'static [Contestant<I>],
}

pub struct Contestant<I> {
    pub name: &'static str,
    pub call: fn(&mut I) -> u64,
}

const CHECKSUM: Table<Vec<u8>> = Table {
    title: "Checksum",
    unit: "bytes",
    sizes: &SIZES,
    input: random_bytes,
    contestants: &[
        Contestant { name: AS_IT_PICKS, call: |bytes| crc32c(bytes).into() },
        Contestant { name: "Rust a byte a step", call: |bytes| bytestep::crc32c(bytes).into() },
        Contestant { name: PORTABLE, call: |bytes| portable::crc32c(bytes).into() },
        Contestant { name: OURS, call: |bytes| ffi::crc32c(cells(bytes)).into() },
    ],
};

pub fn cells(bytes: &mut [u8]) -> &[Cell<u8>] {
    Cell::from_mut(bytes).as_slice_of_cells()
}

pub fn random_bytes(rng: &mut Rng, len: usize) -> Vec<u8> {
    let mut bytes = vec![0; len];
    rng.fill(&mut bytes);
    bytes
}

pub fn run() -> ExitCode {
    println!("CPU: {}", cpu_model());
    println!("sse4.2: {}", if has_sse42() { "yes" } else { "no" });
    println!("Nanoseconds a call, median of {SAMPLES} samples.");
    let agree = CHECKSUM.measure()
        && bench_slots::ENCODE.measure()
        && bench_slots::VALIDATE.measure()
        && bench_slots::HEADER_FACTS.measure()
        && bench_pairs::FRAME_SLOT.measure()
        && bench_pairs::WINNER_PAYLOAD.measure()
        && bench_judge::JUDGE.measure()
        && bench_judge::JUDGE_DAMAGED.measure()
        && bench_judge::JUDGE_OPERATORS.measure()
        && bench_judge::JUDGE_ASCENDING.measure()
        && bench_judge::JUDGE_DESCENDING.measure()
        && bench_plan::PLAN_WRITE.measure()
        && bench_plan::PLAN_WRITE_OPERATORS.measure()
        && bench_meta::VOLUME_DECODE.measure()
        && bench_meta::DECODE_PAGE.measure()
        && bench_meta::ENCODE_PAGE.measure()
        && bench_meta::CHECK_ENTRY.measure();
    if agree {
        ExitCode::SUCCESS
    } else {
        ExitCode::FAILURE
    }
}

fn cpu_model() -> String {
    let info = fs::read_to_string("/proc/cpuinfo").unwrap_or_default();
    let model = info.lines().find_map(|line| line.strip_prefix("model name"));
    model.map_or("unknown".to_string(), |rest| rest.trim_start_matches(['\t', ' ', ':']).to_string())
}

#[cfg(target_arch = "x86_64")]
fn has_sse42() -> bool {
    std::arch::is_x86_feature_detected!("sse4.2")
}

#[cfg(not(target_arch = "x86_64"))]
fn has_sse42() -> bool {
    false
}

impl<I> Table<I> {
    /// Prints a row for each size; stops where the contestants differ.
    fn measure(&self) -> bool {
        println!("\n{}\n", self.title);
        self.print_head();
        let mut rng = Rng::new(SEED);
        for size in self.sizes {
            let mut input = (self.input)(&mut rng, *size);
            if !self.all_agree(&mut input) {
                println!("the answers for {size} {} differ", self.unit);
                return false;
            }
            self.print_row(*size, &self.medians(&mut input));
        }
        true
    }

    fn all_agree(&self, input: &mut I) -> bool {
        let answers: Vec<u64> = self.contestants.iter().map(|contestant| (contestant.call)(input)).collect();
        answers.iter().all(|answer| *answer == answers[0])
    }

    /// Nanoseconds a call of each contestant, which take turns sample by sample.
    fn medians(&self, input: &mut I) -> Vec<f64> {
        let calls: Vec<u32> = self.contestants.iter().map(|contestant| contestant.calls_for_a_sample(input)).collect();
        let mut samples = vec![Vec::new(); self.contestants.len()];
        for _ in 0..SAMPLES {
            for (at, contestant) in self.contestants.iter().enumerate() {
                let time = contestant.time(input, calls[at]);
                samples[at].push(time.as_nanos() as f64 / f64::from(calls[at]));
            }
        }
        samples.into_iter().map(median).collect()
    }

    fn print_head(&self) {
        let names: Vec<&str> = self.contestants.iter().map(|contestant| contestant.name).collect();
        let [.., against, ours] = names[..] else { panic!("{}: too few contestants", self.title) };
        println!("| {} | {} | {ours} / {against} |", self.unit, names.join(" | "));
        println!("|{}", "---:|".repeat(names.len() + 2));
    }

    fn print_row(&self, size: usize, medians: &[f64]) {
        let times: Vec<String> = medians.iter().map(|time| format!("{time:.1}")).collect();
        let ratio = medians[medians.len() - 1] / medians[medians.len() - 2];
        println!("| {size} | {} | {ratio:.2} |", times.join(" | "));
    }
}

impl<I> Contestant<I> {
    fn calls_for_a_sample(&self, input: &mut I) -> u32 {
        let mut calls = 1;
        while self.time(input, calls) < SAMPLE_TIME {
            calls *= 2;
        }
        calls
    }

    fn time(&self, input: &mut I, calls: u32) -> Duration {
        let call = black_box(self.call);
        let start = Instant::now();
        for _ in 0..calls {
            black_box(call(black_box(input)));
        }
        start.elapsed()
    }
}

fn median(mut samples: Vec<f64>) -> f64 {
    samples.sort_by(f64::total_cmp);
    samples[samples.len() / 2]
}
