//! Rows of frames to judge: pairs of a known form, stores written like real ones and torn, and pairs of a few values.

use crate::judge_reference::MOST_PAIRS;
use crate::rng::Rng;
use std::ops::{Range, RangeInclusive};

/// The bytes of a slot's part of a frame; the place of the operator after both parts; the bytes of a pair.
pub const HALF: usize = 34;
const OPERATOR: usize = 2 * HALF;
pub const FRAME: usize = OPERATOR + 1;

/// How many operators there are.
pub const OPERATORS: usize = 16;

/// Lengths of frames from a pair and a byte fewer than the most pairs have to as much more.
pub const MOST_LENGTHS: RangeInclusive<usize> = (MOST_PAIRS - 1) * FRAME - 1..=(MOST_PAIRS + 1) * FRAME + 1;

/// A slot's part of a frame.
#[derive(Clone, Copy)]
pub struct Slot {
    pub code: u8,
    pub facts: u8,
    pub generation: u64,
    pub number: u64,
    pub own: u32,
    pub previous: u32,
    pub owner: u64,
}

/// Slot A, slot B, and the operator: the writes of each are numbered by themselves.
#[derive(Clone, Copy)]
pub struct Pair {
    pub slots: [Slot; 2],
    pub operator: u8,
}

impl Slot {
    /// From the start of these bytes.
    #[inline(always)]
    pub fn read(part: &[u8]) -> Self {
        let part: &[u8; HALF] = part.first_chunk().expect("the bytes of a part");
        Self {
            code: part[0],
            facts: part[1],
            generation: u64::from_le_bytes(field(part, 2)),
            number: u64::from_le_bytes(field(part, 10)),
            own: u32::from_le_bytes(field(part, 18)),
            previous: u32::from_le_bytes(field(part, 22)),
            owner: u64::from_le_bytes(field(part, 26)),
        }
    }

    pub fn packed(&self) -> [u8; HALF] {
        let mut part = [0; HALF];
        part[0] = self.code;
        part[1] = self.facts;
        part[2..10].copy_from_slice(&self.generation.to_le_bytes());
        part[10..18].copy_from_slice(&self.number.to_le_bytes());
        part[18..22].copy_from_slice(&self.own.to_le_bytes());
        part[22..26].copy_from_slice(&self.previous.to_le_bytes());
        part[26..].copy_from_slice(&self.owner.to_le_bytes());
        part
    }

    /// Its number counts: it is Valid, or its payload alone fails.
    pub fn is_numbered(&self) -> bool {
        self.code == VALID || self.code == BAD_PAYLOAD && self.facts == 2
    }
}

impl Pair {
    /// From the start of these bytes.
    #[inline(always)]
    pub fn read(frame: &[u8]) -> Self {
        let frame: &[u8; FRAME] = frame.first_chunk().expect("the bytes of a frame");
        Self { slots: [Slot::read(frame), Slot::read(&frame[HALF..])], operator: frame[OPERATOR] }
    }

    pub fn packed(&self) -> [u8; FRAME] {
        let mut frame = [0; FRAME];
        frame[..HALF].copy_from_slice(&self.slots[0].packed());
        frame[HALF..OPERATOR].copy_from_slice(&self.slots[1].packed());
        frame[OPERATOR] = self.operator;
        frame
    }

    /// As pair `at` of a row all its values are in range.
    #[inline(always)]
    pub fn is_in_range(&self, at: usize) -> bool {
        self.operator <= most_operator(at) && self.slots.iter().all(|slot| slot.code <= VALID && slot.facts <= 2)
    }

    /// The same slots under another operator.
    pub const fn by_operator(self, operator: u8) -> Self {
        Self { operator, ..self }
    }
}

/// The highest operator that pair `at` of a row may have: the volume record has 0.
#[inline(always)]
pub fn most_operator(at: usize) -> u8 {
    if at == 0 {
        0
    } else {
        OPERATORS as u8 - 1
    }
}

#[inline(always)]
fn field<const N: usize>(part: &[u8; HALF], at: usize) -> [u8; N] {
    std::array::from_fn(|i| part[at + i])
}

pub fn packed(row: &[Pair]) -> Vec<u8> {
    row.iter().flat_map(Pair::packed).collect()
}

/// The pairs of whole frames.
pub fn row_read(frames: &[u8]) -> Vec<Pair> {
    frames.chunks_exact(FRAME).map(Pair::read).collect()
}

/// Pairs of these operators, to be filled with the parts of their slots.
pub fn unread(operators: impl Iterator<Item = u8>) -> Vec<u8> {
    operators.flat_map(|operator| pair(nothing(0), nothing(0)).by_operator(operator).packed()).collect()
}

/// Where the part of a slot lies, 0 for A and 1 for B.
pub fn part_of(pair: usize, slot: usize) -> Range<usize> {
    let start = FRAME * pair + HALF * slot;
    start..start + HALF
}

/// The same row with all pairs operator 0's.
pub fn of_one_operator(row: &[Pair]) -> Vec<Pair> {
    row.iter().map(|pair| pair.by_operator(0)).collect()
}

pub const BLANK: u8 = 2;
pub const BAD_MAGIC: u8 = 3;
pub const BAD_HEADER: u8 = 4;
pub const UNSUPPORTED: u8 = 5;
pub const INCOMPATIBLE: u8 = 6;
pub const MALFORMED: u8 = 7;
pub const BAD_PAYLOAD: u8 = 11;
pub const VALID: u8 = 12;

/// The winner's checksums in the forms below.
const OWN: u32 = 0x1111_1111;
const PREVIOUS: u32 = 0x2222_2222;

/// The owner generation of Valid slots, and what stands in its place in slots of which it is not given.
pub const OWNER: u64 = 5;
pub const OTHER_OWNER: u64 = 6;

/// A slot that shows nothing.
pub const fn nothing(code: u8) -> Slot {
    Slot { code, facts: 0, generation: 0, number: 0, own: 0, previous: 0, owner: 0 }
}

pub const fn valid(generation: u64, number: u64) -> Slot {
    Slot { code: VALID, facts: 2, generation, number, own: OWN, previous: PREVIOUS, owner: OWNER }
}

/// A slot with a whole header and a damaged payload.
pub const fn bad_payload(generation: u64, number: u64, previous: u32) -> Slot {
    Slot { code: BAD_PAYLOAD, facts: 2, generation, number, own: 0x3333_3333, previous, owner: OTHER_OWNER }
}

/// A slot with a damaged header of which the checksum is read.
pub const fn bad_header(own: u32) -> Slot {
    Slot { code: BAD_HEADER, facts: 1, generation: 0, number: 0, own, previous: 0, owner: OTHER_OWNER }
}

/// A pair of operator 0.
pub const fn pair(a: Slot, b: Slot) -> Pair {
    Pair { slots: [a, b], operator: 0 }
}

// Pairs by what they are in a store where 4 is the highest number.

pub const FIRST: Pair = pair(valid(1, 1), nothing(BLANK));
pub const SOUND_A: Pair = pair(valid(3, 4), valid(2, 3));
pub const SOUND_B: Pair = pair(valid(2, 3), valid(3, 4));
pub const TORN_HEADER_A: Pair = pair(bad_header(5), valid(2, 2));
pub const TORN_HEADER_B: Pair = pair(valid(1, 1), bad_header(PREVIOUS));
pub const TORN_PAYLOAD_A: Pair = pair(bad_payload(3, 5, OWN), valid(2, 2));
pub const TORN_PAYLOAD_B: Pair = pair(valid(2, 4), bad_payload(3, 5, OWN));
pub const NUMBER_BELOW: Pair = pair(valid(2, 3), bad_payload(3, 4, OWN));
pub const NUMBER_ABOVE: Pair = pair(bad_payload(3, 6, OWN), valid(2, 4));
pub const NUMBER_LAST: Pair = pair(valid(2, 4), bad_payload(3, u64::MAX, OWN));
pub const NO_LINK: Pair = pair(valid(2, 4), bad_payload(3, 5, PREVIOUS));
pub const OLDER_HEADER_A: Pair = pair(bad_header(PREVIOUS), valid(2, 4));
pub const OLDER_HEADER_B: Pair = pair(valid(3, 4), bad_header(PREVIOUS));
pub const OLDER_PAYLOAD_A: Pair = pair(bad_payload(1, 3, OWN), valid(2, 4));
pub const OLDER_PAYLOAD_B: Pair = pair(valid(3, 4), bad_payload(1, 5, OWN));
pub const UNREAD_A: Pair = pair(nothing(0), valid(2, 4));
pub const UNREAD_B: Pair = pair(valid(2, 4), nothing(0));
pub const BLANK_A: Pair = pair(nothing(BLANK), valid(1, 1));
pub const BLANK_B: Pair = pair(valid(2, 4), nothing(BLANK));
pub const LOST: Pair = pair(nothing(0), nothing(BLANK));
pub const LOST_NUMBER: Pair = pair(bad_payload(1, 5, OWN), bad_payload(2, 4, OWN));
pub const FORK: Pair = pair(valid(2, 4), valid(2, 5));
pub const REFUSED_A: Pair = pair(nothing(UNSUPPORTED), valid(2, 4));
pub const REFUSED_B: Pair = pair(valid(2, 5), nothing(INCOMPATIBLE));

pub const FORMS: [Pair; 24] = [
    FIRST,
    SOUND_A,
    SOUND_B,
    TORN_HEADER_A,
    TORN_HEADER_B,
    TORN_PAYLOAD_A,
    TORN_PAYLOAD_B,
    NUMBER_BELOW,
    NUMBER_ABOVE,
    NUMBER_LAST,
    NO_LINK,
    OLDER_HEADER_A,
    OLDER_HEADER_B,
    OLDER_PAYLOAD_A,
    OLDER_PAYLOAD_B,
    UNREAD_A,
    UNREAD_B,
    BLANK_A,
    BLANK_B,
    LOST,
    LOST_NUMBER,
    FORK,
    REFUSED_A,
    REFUSED_B,
];

/// How a write was cut off.
#[derive(Clone, Copy)]
pub enum Cut {
    Header,
    Payload,
}

pub const CUTS: [Cut; 2] = [Cut::Header, Cut::Payload];

/// A sound store, until a write is torn.
pub struct Store {
    pub row: Vec<Pair>,
    /// Of each operator.
    next_numbers: [u64; OPERATORS],
    owner: u64,
}

impl Store {
    /// Each pair in its first generation.
    pub fn new(rng: &mut Rng, operators: &[u8]) -> Self {
        let mut store = Self { row: Vec::new(), next_numbers: [1; OPERATORS], owner: OWNER };
        for operator in operators {
            let pair = store.first_pair(rng, *operator);
            store.row.push(pair);
        }
        store
    }

    /// Written some times; now and then with the last numbers or generations.
    pub fn random(rng: &mut Rng, pairs: usize) -> Self {
        let operators = random_operators(rng, pairs);
        let next_numbers = std::array::from_fn(|_| first_number(rng, pairs));
        let mut store = Self { row: Vec::new(), next_numbers, owner: OWNER };
        for operator in operators {
            let pair = if rng.one_in(16) { store.late_pair(rng, operator) } else { store.first_pair(rng, operator) };
            store.row.push(pair);
        }
        let writes = rng.below(2 * pairs + 1);
        store.write_some(rng, writes);
        store
    }

    fn first_pair(&mut self, rng: &mut Rng, operator: u8) -> Pair {
        pair(self.version(rng, operator, 1, 0), nothing(BLANK)).by_operator(operator)
    }

    fn late_pair(&mut self, rng: &mut Rng, operator: u8) -> Pair {
        let generation = u64::MAX - 1 - rng.below(4) as u64;
        let previous = random_checksum(rng);
        let older = self.version(rng, operator, generation, previous);
        let newer = self.version(rng, operator, generation + 1, older.own);
        let pair = if rng.one_in(2) { pair(older, newer) } else { pair(newer, older) };
        pair.by_operator(operator)
    }

    /// A Valid slot with the operator's next number.
    fn version(&mut self, rng: &mut Rng, operator: u8, generation: u64, previous: u32) -> Slot {
        let next = &mut self.next_numbers[usize::from(operator)];
        let number = *next;
        *next = number.saturating_add(1);
        let own = random_checksum(rng);
        Slot { code: VALID, facts: 2, generation, number, own, previous, owner: self.owner }
    }

    /// Writes a pair again, if its generation has a successor.
    pub fn write(&mut self, rng: &mut Rng, pair: usize) {
        let Pair { slots: [a, b], operator } = self.row[pair];
        let a_is_newer = b.code != VALID || a.code == VALID && a.generation > b.generation;
        let newer = if a_is_newer { a } else { b };
        if let Some(generation) = newer.generation.checked_add(1) {
            self.row[pair].slots[usize::from(a_is_newer)] = self.version(rng, operator, generation, newer.own);
        }
    }

    /// Writes random pairs again, now and then with another owner from then on.
    pub fn write_some(&mut self, rng: &mut Rng, writes: usize) {
        if rng.one_in(4) {
            self.owner = rng.any();
        }
        for _ in 0..writes {
            let pair = rng.below(self.row.len());
            self.write(rng, pair);
        }
    }

    /// Writes a pair and cuts the write off.
    pub fn tear(&mut self, rng: &mut Rng, pair: usize, cut: Cut) {
        let before = self.row[pair].slots;
        self.write(rng, pair);
        for (slot, old) in self.row[pair].slots.iter_mut().zip(before) {
            if slot.number != old.number || slot.code != old.code {
                *slot = torn(rng, slot, cut);
            }
        }
    }

    /// Damages a slot of a pair, so that no torn write explains it.
    pub fn damage(&mut self, rng: &mut Rng, pair: usize) {
        let slot = rng.below(2);
        let damaged = &mut self.row[pair].slots[slot];
        *damaged = match rng.below(4) {
            0 => nothing(0),
            1 => nothing(MALFORMED),
            2 => Slot { code: BAD_PAYLOAD, previous: random_checksum(rng), ..*damaged },
            _ => bad_header(random_checksum(rng)),
        };
    }
}

/// The number that an operator's first write has: seldom a late one.
fn first_number(rng: &mut Rng, pairs: usize) -> u64 {
    match rng.below(16) {
        0..=1 => u64::MAX - rng.below(3 * pairs + 3) as u64,
        2..=3 => 1 + rng.below(2 * pairs + 1) as u64,
        _ => 1,
    }
}

/// One for each pair: of half of the rows no other than 0.
pub fn random_operators(rng: &mut Rng, pairs: usize) -> Vec<u8> {
    let choices: &[u8] = match rng.below(8) {
        0..=3 => &[0],
        4 => &[0, 1],
        5 => &[1],
        6 => &[0, 1, 2, 15],
        _ => &[0, 1, 2, 3, 4, 5, 6, 7, 8, 9, 10, 11, 12, 13, 14, 15],
    };
    (0..pairs).map(|at| rng.pick(choices).min(most_operator(at))).collect()
}

/// One for each pair, all of them in turn.
pub fn operators_in_turn(pairs: usize) -> Vec<u8> {
    (0..pairs).map(|at| (at % OPERATORS) as u8).collect()
}

fn random_checksum(rng: &mut Rng) -> u32 {
    rng.next() as u32
}

fn torn(rng: &mut Rng, slot: &Slot, cut: Cut) -> Slot {
    match cut {
        Cut::Header => bad_header(random_checksum(rng)),
        Cut::Payload => Slot { code: BAD_PAYLOAD, ..*slot },
    }
}

/// Few pairs for the most part, seldom about as many as are judged, or thousands.
fn random_len(rng: &mut Rng) -> usize {
    match rng.below(4096) {
        0 => 1000 + rng.below(3000),
        1..=15 => 40 + rng.below(200),
        16..=23 => MOST_PAIRS - 1 + rng.below(3),
        24..=800 => 1,
        _ => 1 + rng.below(8),
    }
}

pub fn random_row(rng: &mut Rng) -> Vec<Pair> {
    let pairs = random_len(rng);
    row_of(rng, pairs)
}

pub fn row_of(rng: &mut Rng, pairs: usize) -> Vec<Pair> {
    let form: fn(&mut Rng) -> Pair = match rng.below(8) {
        0..=1 => |rng| pair(few_values(rng), few_values(rng)),
        2 => |rng| rng.pick(&FORMS),
        _ => return torn_store(rng, pairs),
    };
    random_operators(rng, pairs).into_iter().map(|operator| form(rng).by_operator(operator)).collect()
}

/// Numbers and checksums collide.
fn few_values(rng: &mut Rng) -> Slot {
    let code = match rng.below(16) {
        0 => rng.below(13) as u8,
        1 => BLANK,
        2..=4 => BAD_HEADER,
        5..=8 => BAD_PAYLOAD,
        _ => VALID,
    };
    Slot {
        code,
        facts: rng.pick(&[0, 1, 1, 2, 2, 2]),
        generation: rng.pick(&[0, 1, 1, 2, 2, 3, u64::MAX - 1, u64::MAX]),
        number: rng.pick(&[0, 0, 1, 2, 3, 4, u64::MAX - 1, u64::MAX]),
        own: rng.pick(&[0, 1, 2]),
        previous: rng.pick(&[0, 1, 2]),
        owner: rng.pick(&[0, 0, 0, 1, u64::MAX]),
    }
}

/// One torn write for the most part, and now and then another fault.
fn torn_store(rng: &mut Rng, pairs: usize) -> Vec<Pair> {
    let mut store = Store::random(rng, pairs);
    for _ in 0..rng.pick(&[0, 1, 1, 1, 1, 1, 2, 3]) {
        let pair = if rng.one_in(4) { 0 } else { rng.below(pairs) };
        let cut = rng.pick(&CUTS);
        store.tear(rng, pair, cut);
    }
    if rng.one_in(16) {
        let writes = rng.below(3);
        store.write_some(rng, writes);
    }
    for _ in 0..rng.pick(&[0, 0, 0, 0, 1, 1, 2, 3]) {
        let change = rng.pick(CHANGES);
        let pair = rng.below(pairs);
        let side = rng.below(2);
        change(rng, &mut store.row, pair, side);
    }
    store.row
}

/// Changes the slot `side` of a pair.
type Change = fn(&mut Rng, &mut [Pair], usize, usize);

const CHANGES: &[Change] = &[
    |rng, row, pair, side| row[pair].slots[side].code = rng.below(13) as u8,
    |rng, row, pair, side| row[pair].slots[side].code = rng.pick(&[BAD_HEADER, BAD_PAYLOAD, VALID]),
    |rng, row, pair, side| row[pair].slots[side].facts = rng.below(3) as u8,
    |rng, row, pair, side| row[pair].slots[side] = nothing(rng.pick(&[0, BLANK, UNSUPPORTED, INCOMPATIBLE])),
    |rng, row, pair, side| row[pair].slots[side].number = row[rng.below(row.len())].slots[rng.below(2)].number,
    |rng, row, pair, side| row[pair].slots[side].number = beside(rng, row[pair].slots[side].number),
    |rng, row, pair, side| row[pair].slots[side].number = above_an_operator(rng, row),
    |rng, row, pair, side| row[pair].slots[side].generation = beside(rng, row[pair].slots[side].generation),
    |_, row, pair, side| row[pair].slots[side].generation = row[pair].slots[1 - side].generation,
    |rng, row, pair, side| row[pair].slots[side].own ^= 1 << rng.below(32),
    |_, row, pair, side| row[pair].slots[side].own = row[pair].slots[1 - side].previous,
    |rng, row, pair, side| row[pair].slots[side].previous ^= 1 << rng.below(32),
    |rng, row, pair, side| row[pair].slots[side].owner ^= 1 << rng.below(64),
    |_, row, pair, side| row[pair].slots[side].owner = row[pair].slots[1 - side].owner,
    |_, row, pair, _| row[pair].slots.swap(0, 1),
    |rng, row, pair, _| row[pair].slots = rng.pick(&FORMS).slots,
    |rng, row, pair, _| row[pair].operator = row[rng.below(row.len())].operator.min(most_operator(pair)),
    |rng, row, pair, _| row[pair].operator = rng.below(OPERATORS).min(most_operator(pair).into()) as u8,
];

/// One above the highest number in the pairs of some operator.
fn above_an_operator(rng: &mut Rng, row: &[Pair]) -> u64 {
    let operator = row[rng.below(row.len())].operator;
    let numbers =
        row.iter().filter(|pair| pair.operator == operator).flat_map(|pair| pair.slots.map(|slot| slot.number));
    numbers.max().unwrap_or(0).wrapping_add(1)
}

/// One more or less, or in one bit another.
fn beside(rng: &mut Rng, value: u64) -> u64 {
    match rng.below(3) {
        0 => value.wrapping_add(1),
        1 => value.wrapping_sub(1),
        _ => value ^ 1 << rng.below(64),
    }
}

/// A value of a frame that has a range.
#[derive(Clone, Copy)]
pub enum Ranged {
    Code,
    Facts,
    Operator,
}

impl Ranged {
    pub const ALL: [Self; 3] = [Self::Code, Self::Facts, Self::Operator];

    /// A place of it in the frame of pair `at`, and a number that is out of its range there.
    pub fn out_of_range(self, rng: &mut Rng, at: usize) -> (usize, u8) {
        let part = HALF * rng.below(2);
        let (place, most) = match self {
            Self::Code => (part, VALID),
            Self::Facts => (part + 1, 2),
            Self::Operator => (OPERATOR, most_operator(at)),
        };
        let least = usize::from(most) + 1;
        let value = if rng.one_in(2) { least } else { least + rng.below(256 - least) };
        (place, value as u8)
    }

    /// Sets one out of range in some pair, if there is one.
    pub fn spoil(self, rng: &mut Rng, frames: &mut [u8]) {
        let pairs = frames.len() / FRAME;
        if pairs > 0 {
            let pair = rng.below(pairs);
            let (place, value) = self.out_of_range(rng, pair);
            frames[FRAME * pair + place] = value;
        }
    }
}
