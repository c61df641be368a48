//! Compares the payload of a pair's winner with the reference's slot.rs and pair.rs.

use crate::counts::{Answer, Function};
use crate::faults::{spoil_header, spoil_payload};
use crate::ffi_pair::{winner_payload, Answered, PairIdentity};
use crate::lent::{Lent, LentCell};
use crate::outcome::{filled, Call, Expected, Held};
use crate::pairs::{decision, random_neighbour, DECISIONS};
use crate::part::{number, Checked, Fields, Part, Run};
use crate::rng::Rng;
use crate::sample::{
    random_identity, random_payload_len, Form, Sample, COUNT, FORMAT, GENERATION, HEADER, HEADER_CRC, HEADER_LEN,
    INCOMPAT_FLAGS, MAGIC, OBJECT, OFFSET, PAYLOAD_LEN, PREVIOUS_CRC, RO_COMPAT_FLAGS, SMALLEST_LOG2, VOLUME, YES,
};
use crate::slot_reference::{self, WinnerPayload};
use crate::slots::{damaged, random_form, STATUSES};

const PAYLOAD: &str = "sio_winner_payload";
const A: &str = "sio_winner_payload: A";
const B: &str = "sio_winner_payload: B";
const PLACE: &str = "sio_winner_payload: place";

const SOME: &str = "after 128 bytes";
const EMPTY: &str = "of no bytes";
const FULL: &str = "to the slot's end";
const LONG_HEADER: &str = "after a longer header";

const PLACES: &[Answer] =
    &[Answer::Decision(SOME), Answer::Decision(EMPTY), Answer::Decision(FULL), Answer::Decision(LONG_HEADER)];

pub const PART: Part = Part {
    functions: &[
        Function::new(PAYLOAD, DECISIONS),
        Function::part(A, STATUSES),
        Function::part(B, STATUSES),
        Function::part(PLACE, PLACES),
    ],
    sweep,
    round,
};

/// Changes of a Valid slot: at least one for each status, in their order, then those that leave it Valid.
const CHANGES: &[fn(&mut Sample, &mut Rng)] = &[
    |sample, rng| sample.slot.resize(rng.pick(&[0, 127, sample.slot.len() - 1, sample.slot.len() + 1]), 0),
    |sample, _| sample.slot[..HEADER].fill(0),
    |sample, rng| sample.flip_in(rng, MAGIC),
    |sample, rng| spoil_header(sample, rng),
    |sample, _| sample.set(FORMAT, 3),
    |sample, rng| sample.flip_in(rng, INCOMPAT_FLAGS),
    |sample, rng| sample.flip_in(rng, COUNT),
    |sample, rng| sample.flip_in(rng, VOLUME),
    |sample, rng| sample.flip_in(rng, OBJECT),
    |sample, rng| sample.flip_in(rng, OFFSET),
    |sample, rng| spoil_payload(sample, rng),
    |_, _| (),
    |sample, rng| sample.set(RO_COMPAT_FLAGS, rng.next()),
    longer_header,
];

/// The places of some changes.
const BLANK: usize = 1;
const HEADER_SPOILED: usize = 3;

/// How much higher B's generation is than A's.
const STEPS: [u64; 5] = [0, 1, 2, u64::MAX, u64::MAX - 1];

fn sweep(run: &mut Run) -> Checked {
    for format in [1, 2] {
        for numbered in [false, true] {
            let form = Form { log2: SMALLEST_LOG2, format, numbered, payload_len: 0 };
            changed_pairs(run, &form)?;
            large_slots(run, &form)?;
        }
    }
    Ok(())
}

/// Every change of A beside every change of B, in every order of their generations.
fn changed_pairs(run: &mut Run, form: &Form) -> Checked {
    for a_change in 0..CHANGES.len() {
        for b_change in 0..CHANGES.len() {
            for step in STEPS {
                let mut slots = written_pair(&mut run.rng, form);
                let generation = slots[0].get(GENERATION).clamp(3, u64::MAX - 2);
                slots[0].set(GENERATION, generation);
                follow(&mut run.rng, &mut slots, generation.wrapping_add(step));
                change(&mut run.rng, &mut slots[0], a_change);
                change(&mut run.rng, &mut slots[1], b_change);
                compare(run, &slots)?;
            }
        }
    }
    Ok(())
}

/// Makes a change, and the header's checksum fit but where that would undo the change.
fn change(rng: &mut Rng, sample: &mut Sample, at: usize) {
    CHANGES[at](sample, rng);
    if ![BLANK, HEADER_SPOILED].contains(&at) {
        sample.seal_header();
    }
}

/// The larger sizes, and slots of another size than the reader's.
fn large_slots(run: &mut Run, form: &Form) -> Checked {
    for log2 in SMALLEST_LOG2..=16 {
        for _ in 0..8 {
            let form = Form { log2, ..*form };
            let mut slots = written_pair(&mut run.rng, &form);
            compare(run, &slots)?;
            slots[0].at.log2_slot_size = run.rng.pick(&[8, 9, log2 + 1, 64 + log2]);
            compare(run, &slots)?;
        }
    }
    Ok(())
}

/// Often both Valid and one generation apart.
fn round(run: &mut Run) -> Checked {
    let rng = &mut run.rng;
    let form = random_form(rng);
    let mut slots = written_pair(rng, &form);
    let generation = random_neighbour(rng, slots[0].get(GENERATION));
    follow(rng, &mut slots, generation);
    let slots = slots.map(|sample| random_change(rng, sample));
    compare(run, &slots)
}

fn random_change(rng: &mut Rng, mut sample: Sample) -> Sample {
    match rng.below(16) {
        0 => change(rng, &mut sample, BLANK),
        1..=2 => {
            let at = rng.below(CHANGES.len());
            change(rng, &mut sample, at);
        }
        3..=6 => return damaged(rng, sample),
        7..=8 if sample.at.format_major == 1 => longer_header(&mut sample, rng),
        _ => (),
    }
    sample
}

/// Two Valid slots of one object.
fn written_pair(rng: &mut Rng, form: &Form) -> [Sample; 2] {
    let at = random_identity(rng, form.log2, form.format);
    let numbered = if form.numbered { rng.pick(&YES) } else { 0 };
    [0, 1].map(|index| {
        let mut at = at;
        at.index = index;
        at.slot_offset = rng.any();
        let mut sample = Sample { slot: vec![0; 1 << form.log2], at, numbered };
        let payload_len = random_payload_len(rng, form.room());
        sample.write(rng, payload_len);
        sample
    })
}

/// Gives B its generation, and often the newer slot the older one's checksum as its previous one.
fn follow(rng: &mut Rng, slots: &mut [Sample; 2], b_generation: u64) {
    slots[1].set(GENERATION, b_generation);
    let (older, newer) = if slots[0].get(GENERATION) < b_generation { (0, 1) } else { (1, 0) };
    slots[older].seal_header();
    if !rng.one_in(3) {
        slots[newer].set(PREVIOUS_CRC, slots[older].get(HEADER_CRC));
    }
    slots[newer].seal_header();
}

/// A header longer than 128 bytes and a payload that fits after it: Valid in format 1 only.
fn longer_header(sample: &mut Sample, rng: &mut Rng) {
    let size = sample.slot.len() as u64;
    let header_len = rng.between(HEADER as u64 + 1, size.min(0xffff));
    sample.set(HEADER_LEN, header_len);
    sample.set(PAYLOAD_LEN, rng.between(0, size - header_len));
    rng.fill(&mut sample.slot[HEADER..]);
    sample.seal();
}

/// What both slots share is read as A has it.
fn pair_identity([a, b]: &[Sample; 2]) -> PairIdentity {
    PairIdentity {
        volume0: a.at.volume0,
        volume1: a.at.volume1,
        object_id: a.at.object_id,
        offsets: [a.at.slot_offset, b.at.slot_offset],
        log2_slot_size: a.at.log2_slot_size,
        format_major: a.at.format_major,
        numbered: a.numbered,
    }
}

fn compare(run: &mut Run, slots: &[Sample; 2]) -> Checked {
    let at = pair_identity(slots);
    let [a, b] = slots.each_ref().map(|sample| Lent::holding(&mut run.rng, &sample.slot));
    let values_a = LentCell::random(&mut run.rng);
    let values_b = LentCell::random(&mut run.rng);
    let report = LentCell::random(&mut run.rng);
    let start = LentCell::random(&mut run.rng);
    let payload_len = LentCell::random(&mut run.rng);
    let winner = slot_reference::winner_payload(&slots[0].slot, &slots[1].slot, &at);
    count_parts(run, slots, &winner);
    let [_, _, kind, index, gap, broken, _] = winner.report;
    let answer = decision([kind, index, gap, broken]);
    let answered = Answered {
        values_a: values_a.cell(),
        values_b: values_b.cell(),
        report: report.cell(),
        start: start.cell(),
        payload_len: payload_len.cell(),
    };
    let found = winner_payload(a.cells(), b.cells(), &at, &answered);
    let call = Call { function: PAYLOAD, answer, expected: winner.winner.into(), found };
    let expected: Expected<WinnerPayload> = Ok(winner);
    let lent: &[(&'static str, &dyn Held)] = &[
        ("a", &a),
        ("b", &b),
        ("values_a cell", &filled(&values_a, &expected, |winner| winner.values_a)),
        ("values_b cell", &filled(&values_b, &expected, |winner| winner.values_b)),
        ("report cell", &filled(&report, &expected, |winner| winner.report)),
        ("start cell", &filled(&start, &expected, |winner| winner.start)),
        ("payload_len cell", &filled(&payload_len, &expected, |winner| winner.payload_len)),
    ];
    call.compare(run, lent, || fields(&at))
}

fn count_parts(run: &mut Run, slots: &[Sample; 2], winner: &WinnerPayload) {
    run.counts.add_part(A, Answer::Status(winner.report[0].into()));
    run.counts.add_part(B, Answer::Status(winner.report[1].into()));
    if winner.winner == 0 {
        return;
    }
    let size = slots[usize::from(winner.winner) - 1].slot.len();
    let place = match (winner.start, winner.payload_len) {
        (_, 0) => EMPTY,
        (start, _) if start > HEADER => LONG_HEADER,
        (start, len) if start + len == size => FULL,
        _ => SOME,
    };
    run.counts.add_part(PLACE, Answer::Decision(place));
}

fn fields(at: &PairIdentity) -> Fields {
    vec![
        ("volume0", number(at.volume0)),
        ("volume1", number(at.volume1)),
        ("object_id", number(at.object_id)),
        ("a_offset", number(at.offsets[0])),
        ("b_offset", number(at.offsets[1])),
        ("log2_slot_size", number(at.log2_slot_size)),
        ("format_major", number(at.format_major)),
        ("numbered", number(at.numbered)),
    ]
}
