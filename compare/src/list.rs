//! Prints the fixed lists: cases with the reference's answers, one a line, for a program that needs no Rust.
//!
//! A line is `NAME INPUT EXPECTED`, both fields packed and in hex, `-` where empty. Numbers are little-endian in their
//! own width. list_codec.rs, list_slots.rs, list_judge.rs, list_plan.rs and list_meta.rs have a table each of what the
//! fields hold.

use crate::rng::Rng;
use crate::value::{hex, Value};
use std::process::ExitCode;

const SEED: u64 = 0x5106;

const LIMIT: usize = 80_000;

pub struct List {
    pub text: String,
    pub rng: Rng,
}

impl List {
    pub fn new(seed: u64) -> Self {
        Self { text: String::new(), rng: Rng::new(seed) }
    }

    pub fn line(&mut self, name: &str, input: &[u8], expected: &[u8]) {
        let line = format!("{name} {} {}\n", hex(input), hex(expected));
        self.text.push_str(&line);
    }

    pub fn random_bytes(&mut self, len: usize) -> Vec<u8> {
        let mut bytes = vec![0; len];
        self.rng.fill(&mut bytes);
        bytes
    }
}

pub fn print(fill: fn(&mut List)) -> ExitCode {
    let mut list = List::new(SEED);
    fill(&mut list);
    print!("{}", list.text);
    if list.text.len() > LIMIT {
        eprintln!("the list has {} bytes, more than {LIMIT}", list.text.len());
        return ExitCode::FAILURE;
    }
    ExitCode::SUCCESS
}

/// Bytes after their length in 2 bytes.
pub fn with_len(bytes: &[u8]) -> Vec<u8> {
    [&(bytes.len() as u16).packed()[..], bytes].concat()
}
