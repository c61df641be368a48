//! What is lent to a call: buffers and cells between guards, with what they must hold afterwards.
//!
//! All of it lies in `Cell`s, so that the compiler does not take lent bytes for unchanged by the call.

use crate::rng::Rng;
use crate::value::{hex, Value};
use std::cell::Cell;

/// Bytes before and after a lent buffer that no call may change.
const GUARD: usize = 16;

/// Cells before and after a lent cell that no call may change.
const GUARD_CELLS: usize = 8;

const ALIGNMENT: usize = 8;

/// A buffer to lend.
pub struct Lent {
    memory: Vec<Cell<u8>>,
    before: Vec<u8>,
    expected: Vec<u8>,
    start: usize,
    len: usize,
}

impl Lent {
    /// Holds `content`, beginning `shift` bytes after an aligned address.
    pub fn new(rng: &mut Rng, content: &[u8], shift: usize) -> Self {
        let len = content.len();
        let mut before = vec![0; len + shift + ALIGNMENT + 2 * GUARD];
        let memory = vec![Cell::new(0); before.len()];
        let start = GUARD + memory[GUARD..].as_ptr().align_offset(ALIGNMENT) + shift;
        let (front, rest) = before.split_at_mut(start);
        let (lent, back) = rest.split_at_mut(len);
        rng.fill(front);
        lent.copy_from_slice(content);
        rng.fill(back);
        for (cell, byte) in memory.iter().zip(&before) {
            cell.set(*byte);
        }
        Self { memory, expected: before.clone(), before, start, len }
    }

    /// `len` random bytes at a random alignment.
    pub fn random(rng: &mut Rng, len: usize) -> Self {
        let content = rng.bytes(len);
        Self::holding(rng, &content)
    }

    /// `content` at a random alignment.
    pub fn holding(rng: &mut Rng, content: &[u8]) -> Self {
        let shift = rng.below(ALIGNMENT);
        Self::new(rng, content, shift)
    }

    /// The part that is lent.
    pub fn cells(&self) -> &[Cell<u8>] {
        &self.memory[self.start..self.start + self.len]
    }

    /// The bytes expected in the lent part.
    pub fn expected(&self) -> &[u8] {
        &self.expected[self.start..self.start + self.len]
    }

    pub fn expected_mut(&mut self) -> &mut [u8] {
        &mut self.expected[self.start..self.start + self.len]
    }

    /// Lent part and guards hold what is expected.
    pub fn holds(&self) -> bool {
        self.memory.iter().map(Cell::get).eq(self.expected.iter().copied())
    }

    /// What was lent, as it was before the call.
    pub fn before_text(&self) -> String {
        self.text(&self.before)
    }

    pub fn expected_text(&self) -> String {
        self.text(&self.expected)
    }

    pub fn found_text(&self) -> String {
        let found: Vec<u8> = self.memory.iter().map(Cell::get).collect();
        self.text(&found)
    }

    fn text(&self, memory: &[u8]) -> String {
        let end = self.start + self.len;
        format!("{} [{}] {}", hex(&memory[..self.start]), hex(&memory[self.start..end]), hex(&memory[end..]))
    }
}

/// A number or an array to lend.
pub struct LentCell<T> {
    cells: [Cell<T>; 2 * GUARD_CELLS + 1],
    before: [T; 2 * GUARD_CELLS + 1],
}

impl<T: Value> LentCell<T> {
    /// Holds a random value.
    pub fn random(rng: &mut Rng) -> Self {
        let value = T::random(rng);
        Self::holding(rng, value)
    }

    pub fn holding(rng: &mut Rng, value: T) -> Self {
        let mut before = std::array::from_fn(|_| T::random(rng));
        before[GUARD_CELLS] = value;
        Self { cells: before.map(Cell::new), before }
    }

    /// The cell that is lent.
    pub fn cell(&self) -> &Cell<T> {
        &self.cells[GUARD_CELLS]
    }

    /// The cell holds `value`, or what it held before where that is `None`, and the guards are as they were.
    pub fn holds(&self, value: Option<T>) -> bool {
        self.cells.iter().map(Cell::get).eq(self.after(value))
    }

    pub fn expected_text(&self, value: Option<T>) -> String {
        Self::text(&self.after(value))
    }

    pub fn found_text(&self) -> String {
        Self::text(&self.cells.each_ref().map(Cell::get))
    }

    fn after(&self, value: Option<T>) -> [T; 2 * GUARD_CELLS + 1] {
        let mut after = self.before;
        after[GUARD_CELLS] = value.unwrap_or(after[GUARD_CELLS]);
        after
    }

    fn text(cells: &[T]) -> String {
        let packed = |cells: &[T]| -> Vec<u8> { cells.iter().flat_map(|cell| cell.packed()).collect() };
        format!(
            "{} [{}] {}",
            hex(&packed(&cells[..GUARD_CELLS])),
            hex(&packed(&cells[GUARD_CELLS..=GUARD_CELLS])),
            hex(&packed(&cells[GUARD_CELLS + 1..]))
        )
    }
}
