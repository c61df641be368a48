//! The judge restated from docs/FORMAT.md ("The store verdict"), for pairs of several operators, of which the Rust's judge knows nothing.

use crate::frames::{Pair, Slot, BAD_HEADER, BAD_PAYLOAD, BLANK, INCOMPATIBLE, UNSUPPORTED, VALID};
use crate::judge_reference::{JUDGEMENT, VERDICT};

/// In the order of their numbers.
#[derive(Clone, Copy, PartialEq)]
enum Standing {
    Confirmed,
    Unconfirmed,
    Lost,
    Refused,
}

/// The same.
#[derive(Clone, Copy, PartialEq)]
enum Says {
    Winner,
    Nothing,
    OlderDamaged,
    InFlight,
    Damage,
}

/// The winner is 0 for A and 1 for B.
#[derive(Clone, Copy)]
struct Verdict {
    standing: Standing,
    winner: Option<usize>,
    says: [Says; 2],
}

impl Verdict {
    fn without_winner(standing: Standing) -> Self {
        Self { standing, winner: None, says: [Says::Damage; 2] }
    }

    /// Beside Damage the winner is Unconfirmed.
    fn won(winner: usize, other: Says) -> Self {
        let standing = if other == Says::Damage { Standing::Unconfirmed } else { Standing::Confirmed };
        let mut says = [other; 2];
        says[winner] = Says::Winner;
        Self { standing, winner: Some(winner), says }
    }

    fn in_flight(&self) -> Option<usize> {
        self.says.iter().position(|says| *says == Says::InFlight)
    }

    fn packed(&self) -> [u8; VERDICT] {
        let [a, b] = self.says.map(|says| says as u8);
        [self.standing as u8, slot_number(self.winner), a, b]
    }
}

/// 0 for none, 1 for A, 2 for B.
fn slot_number(slot: Option<usize>) -> u8 {
    slot.map_or(0, |slot| slot as u8 + 1)
}

/// What the slot opposite the one Valid slot is.
enum Opposite {
    Known(Says),
    TornHeader,
    TornPayload,
}

fn opposite(pair: &Pair, winner: usize) -> Opposite {
    let other = 1 - winner;
    let (winner, slot) = (&pair.slots[winner], &pair.slots[other]);
    let older = Opposite::Known(Says::OlderDamaged);
    match (slot.code, slot.facts) {
        (BLANK, _) if other == 1 && winner.generation == 1 => Opposite::Known(Says::Nothing),
        (BAD_HEADER, 1..) if winner.generation >= 2 && slot.own == winner.previous => older,
        (BAD_HEADER, 1..) => Opposite::TornHeader,
        (BAD_PAYLOAD, 2) if slot.generation < winner.generation => older,
        (BAD_PAYLOAD, 2) if follows(slot, winner) => Opposite::TornPayload,
        _ => Opposite::Known(Says::Damage),
    }
}

fn follows(slot: &Slot, winner: &Slot) -> bool {
    winner.generation.checked_add(1) == Some(slot.generation) && slot.previous == winner.own
}

/// The winner of a pair that is neither refused nor lost.
fn winner(pair: &Pair) -> Result<usize, Standing> {
    let [a, b] = &pair.slots;
    if [a, b].iter().any(|slot| [UNSUPPORTED, INCOMPATIBLE].contains(&slot.code)) {
        return Err(Standing::Refused);
    }
    match (a.code == VALID, b.code == VALID) {
        (true, true) if a.generation == b.generation => Err(Standing::Lost),
        (true, true) => Ok(usize::from(a.generation < b.generation)),
        (true, false) => Ok(0),
        (false, true) => Ok(1),
        (false, false) => Err(Standing::Lost),
    }
}

/// The slot opposite the winner, and what it is, where it is not Valid as well.
fn failed(pair: &Pair) -> Option<(usize, Opposite)> {
    let winner = winner(pair).ok()?;
    let other = 1 - winner;
    (pair.slots[other].code != VALID).then(|| (other, opposite(pair, winner)))
}

/// The numbered slots in the pairs of an operator: pair, slot, number.
pub fn numbered(row: &[Pair], operator: u8) -> impl Iterator<Item = (usize, usize, u64)> + '_ {
    let own = row.iter().enumerate().filter(move |(_, pair)| pair.operator == operator);
    own.flat_map(|(at, pair)| pair.slots.iter().enumerate().map(move |(slot, found)| (at, slot, found)))
        .filter(|(_, _, found)| found.is_numbered())
        .map(|(at, slot, found)| (at, slot, found.number))
}

/// The torn payloads of a row: pair and slot.
pub fn torn_payloads(row: &[Pair]) -> Vec<(usize, usize)> {
    let failed = row.iter().enumerate().filter_map(|(at, pair)| Some((at, failed(pair)?)));
    failed.filter(|(_, (_, is))| matches!(is, Opposite::TornPayload)).map(|(at, (slot, _))| (at, slot)).collect()
}

/// A torn payload's number is one more than the highest of all other numbered slots of its operator, 0 if there are none.
pub fn qualifies(row: &[Pair], (at, slot): (usize, usize)) -> bool {
    let others = numbered(row, row[at].operator).filter(|(pair, side, _)| (*pair, *side) != (at, slot));
    let highest = others.map(|(_, _, number)| number).max().unwrap_or(0);
    highest.checked_add(1) == Some(row[at].slots[slot].number)
}

fn first_pass(row: &[Pair], at: usize) -> Verdict {
    let winner = match winner(&row[at]) {
        Ok(winner) => winner,
        Err(standing) => return Verdict::without_winner(standing),
    };
    Verdict::won(
        winner,
        match failed(&row[at]) {
            None => Says::Nothing,
            Some((_, Opposite::Known(says))) => says,
            Some((slot, Opposite::TornPayload)) if !qualifies(row, (at, slot)) => Says::Damage,
            Some((_, Opposite::TornHeader | Opposite::TornPayload)) => Says::InFlight,
        },
    )
}

/// The verdicts, and of the judgement all numbers but the last.
pub fn judge(row: &[Pair], clean: bool) -> (Vec<u8>, [u64; JUDGEMENT - 1]) {
    let mut verdicts: Vec<Verdict> = (0..row.len()).map(|at| first_pass(row, at)).collect();
    let candidate = |pair| failed(pair).is_some_and(|(_, is)| !matches!(is, Opposite::Known(_)));
    let page_had_candidate = row[1..].iter().any(candidate);
    let refused = verdicts.iter().any(|verdict| verdict.standing == Standing::Refused);
    let clean = clean && verdicts[0].standing == Standing::Confirmed && verdicts[0].in_flight().is_none();
    second_pass(&mut verdicts, refused, clean);
    let writable = !refused
        && verdicts[0].winner.is_some()
        && (verdicts[0].standing != Standing::Unconfirmed || !page_had_candidate);
    let healed = verdicts.iter().enumerate().find_map(|(at, verdict)| Some((at, verdict.in_flight()?)));
    let (pair, slot) = healed.map_or((0, 0), |(at, slot)| (at as u64, slot_number(Some(slot)).into()));
    let packed = verdicts.iter().flat_map(Verdict::packed).collect();
    (packed, [slot, pair, writable.into(), clean.into(), refused.into()])
}

/// Demotes what is in flight and is not the one write that a power cut tears.
fn second_pass(verdicts: &mut [Verdict], refused: bool, clean: bool) {
    let qualifying = verdicts.iter().filter(|verdict| verdict.in_flight().is_some()).count();
    let troubled = verdicts.iter().any(|verdict| verdict.standing != Standing::Confirmed);
    for (at, verdict) in verdicts.iter_mut().enumerate() {
        let Some(slot) = verdict.in_flight() else { continue };
        let demoted = if at == 0 { refused } else { clean || troubled };
        if demoted || qualifying != 1 {
            *verdict = Verdict::won(1 - slot, Says::Damage);
        }
    }
}
