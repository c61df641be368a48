//! Hands random rows, in lists like the fixed one of list_judge.rs, to the program `replay_judge`: both judges must answer
//! what the reference answers. The lists begin with a row each, of 1 pair to the most that the program takes in turn, and go on with rows
//! of few pairs.

use crate::counts::{Answer, Counts, Function};
use crate::frames::{packed, row_of, Ranged};
use crate::judge_reference::{BAD_FRAMES, MOST_PAIRS, NO_PAIR, TOO_MANY_PAIRS, VERDICT, VERDICTS_LEN};
use crate::judging::{count_judged, judgement_answer, JUDGEMENTS, OPERATORS_MET, VERDICTS, WINNERS};
use crate::list::List;
use crate::list_judge::{both, over_frames, over_records};
use crate::part::{Checked, Report, Run};
use crate::program::output;
use crate::rng::Rng;
use std::process::ExitCode;

const ROWS: &str = "judge over rows";
const VOLUME: &str = "judge over rows: volume";
const PAGE: &str = "judge over rows: page";
const OWNERS: &str = "judge over rows: owners";
const OPERATORS: &str = "judge over rows: operators";

const REFUSALS: &[Answer] = &[
    Answer::Refusal(NO_PAIR),
    Answer::Refusal(TOO_MANY_PAIRS),
    Answer::Refusal(VERDICTS_LEN),
    Answer::Refusal(BAD_FRAMES),
];

/// The most pairs of a row and the most bytes of a list that the program takes; of the other rows the most pairs, and the most bytes of
/// a line.
const LONGEST_ROW: usize = 2 * MOST_PAIRS;
const LONGEST_LIST: usize = 131_072;
const FEW_PAIRS: usize = 5;
const LONGEST_LINE: usize = 900;

pub fn run(program: &str, seed: u64, lists: u64) -> ExitCode {
    println!("seed {seed:#x}");
    let functions = [
        Function::new(ROWS, REFUSALS),
        Function::new(ROWS, JUDGEMENTS),
        Function::part(VOLUME, VERDICTS),
        Function::part(PAGE, VERDICTS),
        Function::part(OWNERS, WINNERS),
        Function::part(OPERATORS, OPERATORS_MET),
    ];
    let mut run = Run { rng: Rng::new(seed), counts: Counts::new(functions.iter()) };
    for number in 0..lists {
        let pairs = 1 + number as usize % LONGEST_ROW;
        if let Err(mismatch) = compare(&mut run, program, pairs) {
            print!("{mismatch}");
            return ExitCode::FAILURE;
        }
    }
    run.counts.print();
    let faults = run.counts.faults(lists);
    if !faults.is_empty() {
        println!("fault of the driver:\n{}", faults.join("\n"));
        return ExitCode::FAILURE;
    }
    println!(
        "rows: {} cases in {lists} lists, rows of up to {} pairs, all equal",
        run.counts.total(),
        LONGEST_ROW.min(lists as usize)
    );
    ExitCode::SUCCESS
}

/// One list, as long as the program takes it, that begins with a row of so many pairs.
fn compare(run: &mut Run, program: &str, pairs: usize) -> Checked {
    let mut list = List::new(run.rng.next());
    let (mut judged, mut long, mut refused) = (0, 0, 0);
    if pairs > MOST_PAIRS {
        long_row(run, &mut list, pairs);
        long += 1;
        refused += 1;
    } else {
        judged_row(run, &mut list, pairs);
        judged += 1;
    }
    while list.text.len() + LONGEST_LINE <= LONGEST_LIST {
        if list.rng.one_in(16) {
            refused_row(run, &mut list);
            refused += 1;
        } else {
            let pairs = 1 + list.rng.below(FEW_PAIRS);
            judged_row(run, &mut list, pairs);
            judged += 1;
        }
    }
    let cases = judged + long + refused;
    let expected = format!("jdg {judged} equal\nfrm {long} equal\nrow {refused} equal\n{cases} cases, all equal\n");
    let found = output(program, list.text.as_bytes(), &[list.text.len()]);
    let equal = found.as_ref().is_ok_and(|found| found.stdout == expected.as_bytes() && found.status.code().is_some());
    run.check(ROWS, equal, || Report {
        inputs: vec![("lines of the list", cases.to_string())],
        expected: vec![("printed", expected.escape_default().to_string())],
        found: match found {
            Ok(found) => vec![("printed", found.stdout.escape_ascii().to_string()), ("end", found.status.to_string())],
            Err(error) => vec![("not run", error.to_string())],
        },
    })
}

fn judged_row(run: &mut Run, list: &mut List, pairs: usize) {
    let clean = u8::from(list.rng.one_in(3));
    let row = row_of(&mut list.rng, pairs);
    let judged = both(list, clean, &packed(&row));
    run.counts.add(ROWS, judgement_answer(&judged));
    count_judged(run, [VOLUME, PAGE, OWNERS, OPERATORS], &row, clean, &judged);
}

/// More pairs than are judged: both judges refuse.
fn long_row(run: &mut Run, list: &mut List, pairs: usize) {
    let frames = packed(&row_of(&mut list.rng, pairs));
    for refusal in [over_frames(list, 0, pairs * VERDICT, &frames), over_records(list, 0, &frames, pairs)] {
        run.counts.add(ROWS, Answer::Refusal(refusal));
    }
}

/// No pair, verdicts for another number of pairs, or an operator out of range.
fn refused_row(run: &mut Run, list: &mut List) {
    let pairs = list.rng.below(FEW_PAIRS + 1);
    let clean = list.rng.below(2) as u8;
    let mut frames = if pairs == 0 { Vec::new() } else { packed(&row_of(&mut list.rng, pairs)) };
    let mut room = list.rng.below(FEW_PAIRS + 1);
    if list.rng.one_in(2) {
        Ranged::Operator.spoil(&mut list.rng, &mut frames);
        if list.rng.one_in(2) {
            room = pairs;
        }
    } else if room == pairs {
        room = pairs.saturating_sub(1);
    }
    let refusal = over_records(list, clean, &frames, room);
    run.counts.add(ROWS, Answer::Refusal(refusal));
}
