//! Every case of a small range of stores to judge.

use crate::frames::{
    bad_payload, nothing, packed, pair, part_of, valid, Cut, Pair, Slot, Store, BAD_HEADER, BAD_PAYLOAD, BLANK, CUTS,
    FIRST, FORMS, FRAME, LOST_NUMBER, MOST_LENGTHS, NUMBER_BELOW, OPERATORS, OTHER_OWNER, OWNER, SOUND_A, SOUND_B,
    TORN_HEADER_B, TORN_PAYLOAD_B, VALID,
};
use crate::judge_reference::{MOST_PAIRS, VERDICT};
use crate::judging::{compare, Call};
use crate::part::{Checked, Run};
use crate::rng::Rng;

const GENERATIONS: [u64; 6] = [0, 1, 2, 1 << 32, u64::MAX - 1, u64::MAX];
const NUMBERS: [u64; 5] = [0, 1, 1 << 32, u64::MAX - 1, u64::MAX];

pub fn sweep(run: &mut Run) -> Checked {
    failed_slots(run)?;
    two_statuses(run)?;
    single_bits(run)?;
    rows_of_forms(run)?;
    rows_of_owners(run)?;
    every_operator(run)?;
    all_operators(run)?;
    operators_apart(run)?;
    every_place(run)?;
    two_places(run)?;
    long_rows(run)?;
    many_alike(run)?;
    most_lengths(run)?;
    lengths(run)?;
    values(run)
}

/// As the volume record and as a page, of the volume record's operator and of another, with both marks.
fn compare_pair(run: &mut Run, pair: Pair) -> Checked {
    for clean in [0, 1] {
        compare_row(run, &[pair], clean)?;
        compare_row(run, &[FIRST, pair], clean)?;
        compare_row(run, &[FIRST, pair.by_operator(1)], clean)?;
    }
    Ok(())
}

fn compare_row(run: &mut Run, row: &[Pair], clean: u8) -> Checked {
    compare(run, &Call::new(packed(row), clean))
}

/// A winner with a slot of every status beside it, on both sides.
fn failed_slots(run: &mut Run) -> Checked {
    for generation in GENERATIONS {
        for number in NUMBERS {
            let winner = Slot { generation, number, ..random_slot(&mut run.rng, VALID) };
            for code in 0..=VALID {
                for facts in 0..=2 {
                    failed_slot(run, winner, code, facts)?;
                }
            }
        }
    }
    Ok(())
}

/// Its numbers around those of the winner, and its checksums linked with the winner's or not.
fn failed_slot(run: &mut Run, winner: Slot, code: u8, facts: u8) -> Checked {
    let every = code == BAD_HEADER || code == BAD_PAYLOAD;
    for generation in around(winner.generation, every) {
        for number in around(winner.number, every) {
            for (own, previous) in [(false, false), (false, true), (true, false), (true, true)] {
                let other = random_slot(&mut run.rng, code);
                let other = Slot {
                    facts,
                    generation,
                    number,
                    own: if own { winner.previous } else { other.own },
                    previous: if previous { winner.own } else { other.previous },
                    ..other
                };
                compare_pair(run, pair(winner, other))?;
                compare_pair(run, pair(other, winner))?;
            }
        }
    }
    Ok(())
}

fn around(value: u64, every: bool) -> Vec<u64> {
    if every {
        [0, value.wrapping_sub(1), value, value.wrapping_add(1), value.wrapping_add(2)].to_vec()
    } else {
        [value.wrapping_add(1)].to_vec()
    }
}

fn random_slot(rng: &mut Rng, code: u8) -> Slot {
    Slot {
        code,
        facts: rng.below(3) as u8,
        generation: rng.any(),
        number: rng.any(),
        own: rng.any() as u32,
        previous: rng.any() as u32,
        owner: rng.any(),
    }
}

/// Every two statuses.
fn two_statuses(run: &mut Run) -> Checked {
    for a in 0..=VALID {
        for b in 0..=VALID {
            for facts in 0..=2 {
                let a = Slot { facts, ..random_slot(&mut run.rng, a) };
                let b = random_slot(&mut run.rng, b);
                compare_pair(run, pair(a, b))?;
                compare_pair(run, pair(b, a))?;
            }
        }
    }
    Ok(())
}

/// A torn or an older slot that differs from one in a single bit.
fn single_bits(run: &mut Run) -> Checked {
    for side in [0, 1] {
        for bit in 0..64 {
            let rng = &mut run.rng;
            let winner = Slot { generation: rng.next() >> 1, number: rng.next() >> 1, ..random_slot(rng, VALID) };
            let torn = Slot {
                facts: 2,
                generation: winner.generation + 1,
                number: winner.number + 1,
                previous: winner.own,
                ..random_slot(rng, BAD_PAYLOAD)
            };
            let older = Slot { facts: 1, own: winner.previous, ..random_slot(rng, BAD_HEADER) };
            let mut others = vec![
                torn,
                Slot { generation: torn.generation ^ 1 << bit, ..torn },
                Slot { number: torn.number ^ 1 << bit, ..torn },
                older,
            ];
            if bit < 32 {
                others.push(Slot { previous: torn.previous ^ 1 << bit, ..torn });
                others.push(Slot { own: older.own ^ 1 << bit, ..older });
            }
            for other in others {
                compare_pair(run, if side == 0 { pair(other, winner) } else { pair(winner, other) })?;
            }
        }
    }
    Ok(())
}

/// Every row of one, two and three pairs of the known forms.
fn rows_of_forms(run: &mut Run) -> Checked {
    for clean in [0, 1] {
        for volume in FORMS {
            compare_row(run, &[volume], clean)?;
            for page in FORMS {
                compare_row(run, &[volume, page], clean)?;
                for last in FORMS {
                    compare_row(run, &[volume, page, last], clean)?;
                }
            }
        }
    }
    Ok(())
}

/// Rows of one to four pairs, won by either slot, with a slot in flight or without a winner, whose slots have one of two owners.
fn rows_of_owners(run: &mut Run) -> Checked {
    for pairs in 1..=4 {
        for forms in 0..OWNED.len().pow(pairs) {
            let row: Vec<Pair> = (0..pairs).map(|at| OWNED[forms / OWNED.len().pow(at) % OWNED.len()]).collect();
            for owners in 0..1 << (2 * pairs) {
                let mut row = row.clone();
                for (at, slot) in row.iter_mut().flat_map(|pair| &mut pair.slots).enumerate() {
                    slot.owner = if owners >> at & 1 == 0 { OWNER } else { OTHER_OWNER };
                }
                compare_row(run, &row, 0)?;
            }
        }
    }
    Ok(())
}

const OWNED: [Pair; 4] = [SOUND_A, SOUND_B, TORN_PAYLOAD_B, LOST_NUMBER];

/// Every form as the volume record and as a page, with operators in range and out of it, and verdicts of the right and of a wrong length.
fn every_operator(run: &mut Run) -> Checked {
    for operator in (0..=OPERATORS as u8 + 1).chain([u8::MAX]) {
        for form in FORMS {
            for row in [[form.by_operator(operator), SOUND_A], [SOUND_A, form.by_operator(operator)]] {
                let call = Call::new(packed(&row), 0);
                for verdicts_len in [call.verdicts_len, call.verdicts_len + 1] {
                    compare(run, &Call { frames: call.frames.clone(), clean: 0, verdicts_len })?;
                }
            }
        }
    }
    Ok(())
}

/// A pair of each operator and one torn payload: its number around its own operator's highest and around the highest of all.
fn all_operators(run: &mut Run) -> Checked {
    let row: Vec<Pair> = (0..OPERATORS as u64)
        .map(|operator| pair(valid(1, 10 + operator), nothing(BLANK)).by_operator(operator as u8))
        .collect();
    for number in 0..=12 + OPERATORS as u64 {
        let torn = pair(valid(2, 2), bad_payload(3, number, valid(2, 2).own));
        let mut of_the_volume = row.clone();
        of_the_volume[0] = torn;
        compare_row(run, &of_the_volume, 0)?;
        for operator in 0..OPERATORS {
            for place in [1, OPERATORS] {
                let mut row = row.clone();
                row.insert(place, torn.by_operator(operator as u8));
                compare_row(run, &row, 0)?;
            }
        }
    }
    Ok(())
}

/// Every form beside a pair of its own or of another operator, ahead of it in number, level with it, or behind.
fn operators_apart(run: &mut Run) -> Checked {
    for form in FORMS {
        for number in 0..=8 {
            let beside = pair(valid(1, number), nothing(BLANK));
            for operators in 0..OF_FEW.pow(3) {
                let [own, other, last] = [1, OF_FEW, OF_FEW * OF_FEW].map(|place| operators / place % OF_FEW);
                let [beside, last] = [beside.by_operator(other), FIRST.by_operator(last)];
                compare_row(run, &[FIRST, form.by_operator(own), beside, last], 0)?;
                compare_row(run, &[form, FIRST.by_operator(own), beside, last], 0)?;
            }
        }
    }
    Ok(())
}

const OF_FEW: u8 = 3;

/// One torn write in every place of a row.
fn every_place(run: &mut Run) -> Checked {
    for pairs in 1..=24 {
        for place in 0..pairs {
            for cut in CUTS {
                let mut store = Store::random(&mut run.rng, pairs);
                store.tear(&mut run.rng, place, cut);
                compare_row(run, &store.row, 0)?;
                compare_row(run, &store.row, 1)?;
            }
        }
    }
    Ok(())
}

/// Torn writes in two places, then other writes after them.
fn two_places(run: &mut Run) -> Checked {
    for first in 0..8 {
        for second in 0..8 {
            for cut in CUTS {
                let mut store = Store::random(&mut run.rng, 8);
                store.tear(&mut run.rng, first, cut);
                store.tear(&mut run.rng, second, Cut::Payload);
                compare_row(run, &store.row, 0)?;
                store.write(&mut run.rng, second);
                compare_row(run, &store.row, 0)?;
            }
        }
    }
    Ok(())
}

/// Rows of about as many pairs as are judged and longer ones, torn at both ends.
fn long_rows(run: &mut Run) -> Checked {
    for pairs in [MOST_PAIRS - 1, MOST_PAIRS, MOST_PAIRS + 1, MOST_PAIRS + 2, 256, 4096, 70_000] {
        for place in [0, pairs - 1] {
            let mut store = Store::random(&mut run.rng, pairs);
            store.tear(&mut run.rng, place, Cut::Header);
            compare_row(run, &store.row, 0)?;
            compare_row(run, &store.row, 1)?;
        }
    }
    Ok(())
}

/// As many torn writes, and slots with the highest number, as there are in a row that is judged, and one more.
fn many_alike(run: &mut Run) -> Checked {
    for count in [MOST_PAIRS - 1, MOST_PAIRS] {
        let mut row = vec![TORN_HEADER_B; count];
        compare_row(run, &row, 0)?;
        row.insert(0, FIRST);
        compare_row(run, &row, 0)?;
        let mut row = vec![SOUND_A; count];
        row.push(NUMBER_BELOW);
        compare_row(run, &row, 0)?;
    }
    Ok(())
}

/// Every length of frames about that of the most pairs, with verdicts of the right and of other lengths, good and bad marks, and values out
/// of range.
fn most_lengths(run: &mut Run) -> Checked {
    let row = packed(&Store::random(&mut run.rng, MOST_PAIRS + 2).row);
    for frames_len in MOST_LENGTHS {
        for clean in [0, 1, 2] {
            for code in [row[0], VALID + 1] {
                let mut frames = row[..frames_len].to_vec();
                frames[0] = code;
                let good = Call::new(frames, clean);
                for verdicts_len in [0, good.verdicts_len - VERDICT, good.verdicts_len, good.verdicts_len + VERDICT] {
                    compare(run, &Call { frames: good.frames.clone(), clean, verdicts_len })?;
                }
            }
        }
    }
    Ok(())
}

/// Every length of frames up to three pairs, with verdicts of many lengths and good and bad marks.
fn lengths(run: &mut Run) -> Checked {
    for frames_len in 0..=3 * FRAME + 1 {
        for verdicts_len in (0..=4 * VERDICT + 1).chain([FRAME, frames_len]) {
            for clean in [0, 1, 2, 255] {
                let mut frames = packed(&[FIRST, SOUND_B, FIRST, FIRST]);
                frames.truncate(frames_len);
                compare(run, &Call { frames: frames.clone(), clean, verdicts_len })?;
                run.rng.fill(&mut frames);
                compare(run, &Call { frames, clean, verdicts_len })?;
            }
        }
    }
    Ok(())
}

/// Every code, facts and operator in every place of three pairs, and every mark, with verdicts of the right and of a wrong length.
fn values(run: &mut Run) -> Checked {
    let row = [FIRST, SOUND_B, FIRST];
    let good = Call::new(packed(&row), 0);
    for value in 0..=255 {
        for verdicts_len in [good.verdicts_len, good.verdicts_len + 1] {
            compare(run, &Call { frames: good.frames.clone(), clean: value, verdicts_len })?;
            for pair in 0..3 {
                for at in [0, 1].into_iter().flat_map(|slot| part_of(pair, slot).take(2)) {
                    let mut frames = good.frames.clone();
                    frames[at] = value;
                    compare(run, &Call { frames, clean: 0, verdicts_len })?;
                }
                let mut row = row;
                row[pair].operator = value;
                compare(run, &Call { frames: packed(&row), clean: 0, verdicts_len })?;
            }
        }
    }
    Ok(())
}
