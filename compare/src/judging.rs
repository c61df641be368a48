//! Compares the judge of a store with the reference's judge.rs, and with the rule restated for several operators.

use crate::counts::{Answer, Function};
use crate::ffi;
use crate::frames::{of_one_operator, packed, random_row, row_read, Pair, Ranged, BAD_HEADER, FRAME, OPERATORS};
use crate::judge_reference::{
    judge, judge_any, owners, Judged, BAD_FRAMES, NO_PAIR, TOO_MANY_PAIRS, VERDICT, VERDICTS_LEN,
};
use crate::judge_restated::{qualifies, torn_payloads};
use crate::judging_sweep::sweep;
use crate::lent::{Lent, LentCell};
use crate::part::{number, Checked, Part, Report, Run};
use crate::rng::Rng;
use std::collections::BTreeSet;

const JUDGE: &str = "sio_judge";
const VOLUME: &str = "sio_judge: volume";
const PAGE: &str = "sio_judge: page";
const OWNERS: &str = "sio_judge: owners";
const BY_OPERATOR: &str = "sio_judge: operators";
const BY_FAULT: &str = "sio_judge: operator refused";
const OTHER: &str = "sio_judge: the Rust's other answer";

const REFUSALS: &[Answer] = &[
    Answer::Refusal(NO_PAIR),
    Answer::Refusal(TOO_MANY_PAIRS),
    Answer::Refusal(VERDICTS_LEN),
    Answer::Refusal(BAD_FRAMES),
];

/// What is answered without the limit on pairs where more are handed over: the Rust judges them or refuses the room, its decoder the frames.
const OTHERS: &[Answer] = &[Answer::Done, Answer::Refusal(VERDICTS_LEN), Answer::Refusal(BAD_FRAMES)];

pub const JUDGEMENTS: &[Answer] = &[
    Answer::Decision("heal volume A"),
    Answer::Decision("heal volume B"),
    Answer::Decision("heal page A"),
    Answer::Decision("heal page B"),
    Answer::Decision("no heal"),
    Answer::Decision("no heal, clean"),
    Answer::Decision("not writable"),
    Answer::Decision("refused"),
    Answer::Decision("refused, clean"),
];

/// By the owner generations of the winners.
pub const WINNERS: &[Answer] = &[
    Answer::Decision("no winner"),
    Answer::Decision("one winner"),
    Answer::Decision("one owner"),
    Answer::Decision("two owners"),
    Answer::Decision("two owners, the volume record lost"),
];

const BY_ITS_OPERATOR: &str = "qualifies by operator alone";
const BY_ALL_SLOTS: &str = "would qualify by all slots";
const HEALED: &str = "healed by operator alone";
const NOT_HEALED: &str = "would be healed by all slots";

/// The operators of the pairs beside the volume record's 0, and what they change: torn payloads that qualify, and slots that are healed.
pub const OPERATORS_MET: &[Answer] = &[
    Answer::Decision("operator 0 alone"),
    Answer::Decision("one other operator"),
    Answer::Decision("several other operators"),
    Answer::Decision("all other operators"),
    Answer::Decision(BY_ITS_OPERATOR),
    Answer::Decision(BY_ALL_SLOTS),
    Answer::Decision(HEALED),
    Answer::Decision(NOT_HEALED),
];

const AT_THE_VOLUME: &str = "not 0 at the volume record";
const TOO_HIGH: &str = "above 15 at a page";

/// What of the operators alone is refused.
const OPERATOR_FAULTS: &[Answer] = &[Answer::Decision(AT_THE_VOLUME), Answer::Decision(TOO_HIGH)];

const TORN_HEADER: &str = "torn header not healed";
const TORN_PAYLOAD: &str = "torn payload not healed";

/// The verdicts on a pair. "Not healed" is Damage in a slot that is InFlight where its pair is the whole store.
pub const VERDICTS: &[Answer] = &[
    Answer::Decision("Confirmed A, B Nothing"),
    Answer::Decision("Confirmed A, B OlderDamaged"),
    Answer::Decision("Confirmed A, B InFlight"),
    Answer::Decision("Unconfirmed A, B Damage"),
    Answer::Decision("Confirmed B, A Nothing"),
    Answer::Decision("Confirmed B, A OlderDamaged"),
    Answer::Decision("Confirmed B, A InFlight"),
    Answer::Decision("Unconfirmed B, A Damage"),
    Answer::Decision("Lost"),
    Answer::Decision("Refused"),
    Answer::Decision(TORN_HEADER),
    Answer::Decision(TORN_PAYLOAD),
];

pub const PART: Part = Part {
    functions: &[
        Function::new(JUDGE, REFUSALS),
        Function::new(JUDGE, JUDGEMENTS),
        Function::part(VOLUME, VERDICTS),
        Function::part(PAGE, VERDICTS),
        Function::part(OWNERS, WINNERS),
        Function::part(BY_OPERATOR, OPERATORS_MET),
        Function::part(BY_FAULT, OPERATOR_FAULTS),
        Function::part(OTHER, OTHERS),
    ],
    sweep,
    round,
};

pub struct Call {
    pub frames: Vec<u8>,
    pub clean: u8,
    pub verdicts_len: usize,
}

impl Call {
    /// With room for the verdicts on all whole frames.
    pub fn new(frames: Vec<u8>, clean: u8) -> Self {
        let verdicts_len = frames.len() / FRAME * VERDICT;
        Self { frames, clean, verdicts_len }
    }
}

fn round(run: &mut Run) -> Checked {
    let rng = &mut run.rng;
    let row = random_row(rng);
    let clean = u8::from(rng.one_in(3));
    let mut call = Call::new(packed(&row), clean);
    if rng.one_in(8) {
        for _ in 0..=rng.below(2) {
            let spoil = rng.pick(SPOILS);
            spoil(rng, &mut call);
        }
    }
    compare(run, &call)
}

const SPOILS: &[fn(&mut Rng, &mut Call)] = &[
    |_, call| call.frames.clear(),
    |rng, call| call.frames.truncate(rng.below(call.frames.len() + 1)),
    |rng, call| call.frames.extend(vec![0; 1 + rng.below(FRAME)]),
    |rng, call| call.verdicts_len = rng.below(2 * call.verdicts_len + 2),
    |rng, call| call.verdicts_len = call.verdicts_len.saturating_add_signed(rng.pick(&[-4, -1, 1, 4])),
    |rng, call| call.clean = 2 + rng.below(254) as u8,
    |rng, call| Ranged::Code.spoil(rng, &mut call.frames),
    |rng, call| Ranged::Facts.spoil(rng, &mut call.frames),
    |rng, call| Ranged::Operator.spoil(rng, &mut call.frames),
];

pub fn compare(run: &mut Run, call: &Call) -> Checked {
    let frames = Lent::holding(&mut run.rng, &call.frames);
    let mut verdicts = Lent::random(&mut run.rng, call.verdicts_len);
    let judgement = LentCell::random(&mut run.rng);
    let expected = judge(&call.frames, call.clean, call.verdicts_len);
    match &expected {
        Ok(judged) => {
            verdicts.expected_mut().copy_from_slice(&judged.verdicts);
            count_judged(run, [VOLUME, PAGE, OWNERS, BY_OPERATOR], &row_read(&call.frames), call.clean, judged);
        }
        Err(TOO_MANY_PAIRS) => {
            run.counts.add_part(OTHER, other(&judge_any(&call.frames, call.clean, call.verdicts_len)));
        }
        Err(_) => count_operator_fault(run, call),
    }
    let expected_refusal = expected.as_ref().map_or_else(|refusal| *refusal, |_| 0);
    let expected_judgement = expected.as_ref().ok().map(|judged| judged.judgement);
    let refusal = ffi::judge(frames.cells(), call.clean, verdicts.cells(), judgement.cell());
    let equal =
        refusal == expected_refusal && judgement.holds(expected_judgement) && verdicts.holds() && frames.holds();
    run.case(JUDGE, answer(&expected), equal, || Report {
        inputs: vec![
            ("frames", frames.before_text()),
            ("clean", number(call.clean)),
            ("verdicts", verdicts.before_text()),
        ],
        expected: vec![
            ("refusal", number(expected_refusal)),
            ("judgement cell", judgement.expected_text(expected_judgement)),
            ("verdicts", verdicts.expected_text()),
            ("frames", frames.expected_text()),
        ],
        found: vec![
            ("refusal", number(refusal)),
            ("judgement cell", judgement.found_text()),
            ("verdicts", verdicts.found_text()),
            ("frames", frames.found_text()),
        ],
    })
}

fn answer(judged: &Result<Judged, u32>) -> Answer {
    match judged {
        Ok(judged) => judgement_answer(judged),
        Err(refusal) => Answer::Refusal(*refusal),
    }
}

pub fn judgement_answer(judged: &Judged) -> Answer {
    let [numbers @ .., _] = judged.judgement;
    Answer::Decision(match numbers {
        [1, 0, 1, 0, 0] => "heal volume A",
        [2, 0, 1, 0, 0] => "heal volume B",
        [1, _, 1, 0, 0] => "heal page A",
        [2, _, 1, 0, 0] => "heal page B",
        [0, 0, 1, 0, 0] => "no heal",
        [0, 0, 1, 1, 0] => "no heal, clean",
        [0, 0, 0, 0, 0] => "not writable",
        [0, 0, 0, 0, 1] => "refused",
        [0, 0, 0, 1, 1] => "refused, clean",
        numbers => panic!("the reference gives a judgement of no known form: {numbers:?}"),
    })
}

fn other(rust: &Result<Judged, u32>) -> Answer {
    rust.as_ref().map_or_else(|refusal| Answer::Refusal(*refusal), |_| Answer::Done)
}

/// Counts a row that is judged: the volume record's verdict under one name, the pages' under another, then owners and operators.
pub fn count_judged(
    run: &mut Run,
    [volume, page, owners, operators]: [&'static str; 4],
    row: &[Pair],
    clean: u8,
    judged: &Judged,
) {
    for (at, (pair, verdict)) in row.iter().zip(judged.verdicts.chunks_exact(VERDICT)).enumerate() {
        let place = if at == 0 { volume } else { page };
        run.counts.add_part(place, Answer::Decision(verdict_name(verdict)));
        if let Some(name) = not_healed(pair, verdict) {
            run.counts.add_part(place, Answer::Decision(name));
        }
    }
    run.counts.add_part(owners, owners_answer(row, judged));
    for name in operators_met(row, clean, judged) {
        run.counts.add_part(operators, Answer::Decision(name));
    }
}

fn owners_answer(row: &[Pair], judged: &Judged) -> Answer {
    let winners: Vec<bool> = judged.verdicts.chunks(VERDICT).map(|verdict| verdict[1] != 0).collect();
    let count = winners.iter().filter(|won| **won).count();
    Answer::Decision(match (count, owners(row, &judged.verdicts).len()) {
        (0, _) => "no winner",
        (1, _) => "one winner",
        (_, 1) => "one owner",
        _ if winners[0] => "two owners",
        _ => "two owners, the volume record lost",
    })
}

fn operators_met(row: &[Pair], clean: u8, judged: &Judged) -> Vec<&'static str> {
    let others: BTreeSet<u8> = row.iter().map(|pair| pair.operator).filter(|operator| *operator != 0).collect();
    let mut met = vec![match others.len() {
        0 => return vec!["operator 0 alone"],
        1 => "one other operator",
        count if count + 1 < OPERATORS => "several other operators",
        _ => "all other operators",
    }];
    let alike = of_one_operator(row);
    met.extend(torn_payloads(row).into_iter().filter_map(|torn| {
        let [own, all] = [row, &alike].map(|row| qualifies(row, torn));
        (own != all).then_some(if own { BY_ITS_OPERATOR } else { BY_ALL_SLOTS })
    }));
    let by_all = judge(&packed(&alike), clean, row.len() * VERDICT).map_or(0, |judged| judged.judgement[0]);
    match (judged.judgement[0], by_all) {
        (1.., 0) => met.push(HEALED),
        (0, 1..) => met.push(NOT_HEALED),
        _ => (),
    }
    met
}

/// Counts frames that are judged once their operators are 0.
fn count_operator_fault(run: &mut Run, call: &Call) {
    let row = row_read(&call.frames);
    let alike = packed(&of_one_operator(&row));
    if alike.len() == call.frames.len() && judge(&alike, call.clean, call.verdicts_len).is_ok() {
        let fault = if row[0].operator != 0 { AT_THE_VOLUME } else { TOO_HIGH };
        run.counts.add_part(BY_FAULT, Answer::Decision(fault));
    }
}

fn verdict_name(verdict: &[u8]) -> &'static str {
    match verdict {
        [0, 1, 0, 1] => "Confirmed A, B Nothing",
        [0, 1, 0, 2] => "Confirmed A, B OlderDamaged",
        [0, 1, 0, 3] => "Confirmed A, B InFlight",
        [1, 1, 0, 4] => "Unconfirmed A, B Damage",
        [0, 2, 1, 0] => "Confirmed B, A Nothing",
        [0, 2, 2, 0] => "Confirmed B, A OlderDamaged",
        [0, 2, 3, 0] => "Confirmed B, A InFlight",
        [1, 2, 4, 0] => "Unconfirmed B, A Damage",
        [2, 0, 4, 4] => "Lost",
        [3, 0, 4, 4] => "Refused",
        _ => panic!("the reference gives a verdict of no known form: {verdict:?}"),
    }
}

fn not_healed(pair: &Pair, verdict: &[u8]) -> Option<&'static str> {
    let failed = match verdict {
        [1, 1, ..] => 1,
        [1, 2, ..] => 0,
        _ => return None,
    };
    let alone = judge(&packed(&of_one_operator(&[*pair])), 0, VERDICT).ok()?;
    let healed = alone.judgement[0] != 0;
    healed.then_some(if pair.slots[failed].code == BAD_HEADER { TORN_HEADER } else { TORN_PAYLOAD })
}
