//! Runs the program `verdicts` on texts and compares what it prints with the reference's answer.

use crate::counts::{Answer, Counts, Function};
use crate::frames::{packed, random_operators, row_of, Cut, Pair, Ranged, Store, FRAME};
use crate::judge_reference::{judge, Judged, BAD_FRAMES, MOST_PAIRS, NO_PAIR, TOO_MANY_PAIRS, VERDICT};
use crate::part::{Checked, Report, Run};
use crate::program::{output, output_of_reads};
use crate::rng::Rng;
use crate::value::hex;
use std::io;
use std::process::{ExitCode, Output};

const VERDICTS: &str = "verdicts";

const TOO_LONG: u32 = 11;

const ANSWERS: &[Answer] = &[
    Answer::Done,
    Answer::Refusal(TOO_LONG),
    Answer::Refusal(BAD_FRAMES),
    Answer::Refusal(NO_PAIR),
    Answer::Refusal(TOO_MANY_PAIRS),
];

/// The most bytes that the program takes, and the most frames that such a text has.
const LONGEST: usize = 65_536;
const MOST_LINES: usize = (LONGEST - MARK_LINE) / FRAME_LINE;

/// A mark's line and a frame's, with their newlines.
const MARK_LINE: usize = 3;
const FRAME_LINE: usize = 2 * FRAME + 1;

/// A store whose second pair, of operator 1, has a torn header in B, and what is printed of it.
const EXAMPLE: &str = "00\n\
    0c0001000000000000000100000000000000111111110000000000000000000000000200000000000000000000000000000000000000000000000000000000000000000000\n\
    0c0002000000000000000200000000000000222222223333333300000000000000000401000000000000000000000000000000004444444400000000000000000000000001\n";
const EXAMPLE_OUTPUT: &str = "00010001\n00010003\n020100000001000000\n";

/// Texts that no change of a good one gives.
const SHORT_TEXTS: &[&str] = &[
    EXAMPLE, "", "\n", "\n\n", "0", "0\n", "00", "01", "02", "00\n", "01\n", "02\n", "0a\n", "10\n", "ff\n", "000\n",
    "0\n0\n", " 00\n", "00 \n", "00\r\n", "00\n\n", "\n00\n", "00\n00\n", "00\n0\n", "R08\n", "00\0", "00\n\0",
    "00\x0b",
];

pub fn run(program: &str, seed: u64, runs: u64) -> ExitCode {
    println!("seed {seed:#x}");
    let functions = [Function::new(VERDICTS, ANSWERS)];
    let mut run = Run { rng: Rng::new(seed), counts: Counts::new(functions.iter()) };
    if expected(EXAMPLE.as_bytes()).1 != EXAMPLE_OUTPUT {
        println!("fault of the driver: the example prints something else");
        return ExitCode::FAILURE;
    }
    if let Err(mismatch) = all_runs(&mut run, program, runs) {
        print!("{mismatch}");
        return ExitCode::FAILURE;
    }
    run.counts.print();
    let faults = run.counts.faults(runs);
    if !faults.is_empty() {
        println!("fault of the driver:\n{}", faults.join("\n"));
        return ExitCode::FAILURE;
    }
    println!("verdicts: {} runs, all equal", run.counts.total());
    ExitCode::SUCCESS
}

/// An input that ends twice, the short texts, good ones of some lengths, torn stores, every change of a good text, then random ones.
fn all_runs(run: &mut Run, program: &str, runs: u64) -> Checked {
    first_end(run, program)?;
    for text in SHORT_TEXTS {
        compare(run, program, text.as_bytes())?;
    }
    for pairs in [1, 2, 3, MOST_PAIRS - 1, MOST_PAIRS, MOST_PAIRS + 1, 255, 256, 257, MOST_LINES, MOST_LINES + 1] {
        let text = good_text(&mut run.rng, pairs);
        compare(run, program, &text)?;
    }
    for (pairs, place) in [(1, 0), (2, 1), (MOST_PAIRS, 0), (MOST_PAIRS, MOST_PAIRS - 1), (MOST_PAIRS + 1, MOST_PAIRS)]
    {
        let text = torn_text(&mut run.rng, pairs, place);
        compare(run, program, &text)?;
    }
    for change in CHANGES {
        for pairs in [1, 3, MOST_PAIRS, MOST_PAIRS + 1, MOST_LINES] {
            changed_text(run, program, *change, pairs)?;
        }
    }
    while run.counts.total() < runs {
        let pairs = random_len(&mut run.rng);
        if run.rng.one_in(2) {
            let text = good_text(&mut run.rng, pairs);
            compare(run, program, &text)?;
        } else {
            let change = run.rng.pick(CHANGES);
            changed_text(run, program, change, pairs)?;
        }
    }
    Ok(())
}

fn random_len(rng: &mut Rng) -> usize {
    match rng.below(8) {
        0 => MOST_PAIRS - 1 + rng.below(3),
        1 => MOST_LINES - rng.below(3),
        2 => 1 + rng.below(MOST_LINES),
        _ => 1 + rng.below(8),
    }
}

fn changed_text(run: &mut Run, program: &str, change: Change, pairs: usize) -> Checked {
    let mut text = good_text(&mut run.rng, pairs);
    change(&mut run.rng, &mut text);
    compare(run, program, &text)
}

fn good_text(rng: &mut Rng, pairs: usize) -> Vec<u8> {
    let clean = rng.below(2) as u8;
    text_of(clean, &row_of(rng, pairs))
}

/// A store with a torn write to heal.
fn torn_text(rng: &mut Rng, pairs: usize, place: usize) -> Vec<u8> {
    let operators = random_operators(rng, pairs);
    let mut store = Store::new(rng, &operators);
    store.write_some(rng, pairs);
    store.tear(rng, place, Cut::Payload);
    text_of(0, &store.row)
}

fn text_of(clean: u8, row: &[Pair]) -> Vec<u8> {
    let lines: Vec<String> = packed(row).chunks(FRAME).map(|frame| hex(frame) + "\n").collect();
    format!("{clean:02x}\n{}", lines.concat()).into_bytes()
}

/// Changes a good text.
type Change = fn(&mut Rng, &mut Vec<u8>);

const CHANGES: &[Change] = &[
    |rng, text| set_digit(rng, text, |rng| rng.pick(b"gz/:`@GZ \t\r\n\0\x7f\x80\xff")),
    |rng, text| set_digit(rng, text, |rng| rng.pick(b"ABCDEF")),
    |_, text| text.make_ascii_uppercase(),
    |_, text| *text = text.split(|byte| *byte == b'\n').collect::<Vec<_>>().join(&b"\r\n"[..]),
    |_, text| text.insert(text.len() - 1, b'\r'),
    |_, text| truncate_by(text, 1),
    |_, text| truncate_by(text, 2),
    |rng, text| text.truncate(rng.below(text.len())),
    |_, text| text.truncate(MARK_LINE),
    |_, text| drop(text.drain(..MARK_LINE)),
    |_, text| drop(text.drain(..1)),
    |_, text| text.insert(0, b'0'),
    |_, text| text[1] = b'2',
    |_, text| text[0] = b'1',
    |_, text| text.extend_from_within(..MARK_LINE),
    |rng, text| set_value(rng, text, Ranged::Code),
    |rng, text| set_value(rng, text, Ranged::Facts),
    |rng, text| set_value(rng, text, Ranged::Operator),
    |rng, text| set_value_of(rng, text, Ranged::Operator, 0),
    |rng, text| remove_digits(rng, text, 1),
    |rng, text| remove_digits(rng, text, 2),
    |rng, text| insert(rng, text, b"0"),
    |rng, text| insert(rng, text, b"00"),
    |rng, text| insert(rng, text, b"\n"),
    |rng, text| insert_at_line(rng, text, b"\n"),
    |rng, text| insert_at_line(rng, text, b"00\n"),
    |rng, text| insert_at_line(rng, text, b" "),
    remove_newline,
    set_newline,
    |_, text| text.push(b'\n'),
    |_, text| text.push(0),
    |_, text| text.push(b'0'),
    |_, text| text.resize(LONGEST, 0),
    |_, text| text.resize(LONGEST, b'0'),
    |_, text| text.resize(LONGEST, b'\n'),
    |_, text| text.resize(LONGEST + 1, 0),
    |_, text| text.resize(LONGEST + 1, b'\n'),
    |_, text| repeat_last_line(text, LONGEST),
    |_, text| repeat_last_line(text, LONGEST + 1),
    |rng, text| repeat_last_line(text, LONGEST + 1 + rng.below(3 * LONGEST)),
];

fn truncate_by(text: &mut Vec<u8>, bytes: usize) {
    text.truncate(text.len() - bytes);
}

/// The place of some digit of a good text, mark or frame.
fn digit(rng: &mut Rng, text: &[u8]) -> usize {
    let digits: Vec<usize> = (0..text.len()).filter(|at| text[*at] != b'\n').collect();
    if rng.one_in(4) {
        rng.pick(&digits[..4])
    } else {
        rng.pick(&digits)
    }
}

fn set_digit(rng: &mut Rng, text: &mut [u8], value: fn(&mut Rng) -> u8) {
    let at = digit(rng, text);
    text[at] = value(rng);
}

/// Sets a value of some pair out of its range.
fn set_value(rng: &mut Rng, text: &mut [u8], ranged: Ranged) {
    let pair = rng.below(text.len() / FRAME_LINE);
    set_value_of(rng, text, ranged, pair);
}

fn set_value_of(rng: &mut Rng, text: &mut [u8], ranged: Ranged, pair: usize) {
    let (place, value) = ranged.out_of_range(rng, pair);
    let at = MARK_LINE + FRAME_LINE * pair + 2 * place;
    text[at..at + 2].copy_from_slice(hex(&[value]).as_bytes());
}

fn remove_digits(rng: &mut Rng, text: &mut Vec<u8>, digits: usize) {
    let line = MARK_LINE + FRAME_LINE * rng.below(text.len() / FRAME_LINE);
    let at = line + rng.below(2 * FRAME - 1);
    text.drain(at..at + digits);
}

fn insert(rng: &mut Rng, text: &mut Vec<u8>, bytes: &[u8]) {
    let at = digit(rng, text);
    text.splice(at..at, bytes.iter().copied());
}

fn insert_at_line(rng: &mut Rng, text: &mut Vec<u8>, bytes: &[u8]) {
    let at = MARK_LINE + FRAME_LINE * rng.below(text.len() / FRAME_LINE);
    text.splice(at..at, bytes.iter().copied());
}

/// The place of some newline; often the mark's or the last one.
fn newline(rng: &mut Rng, text: &[u8]) -> usize {
    match rng.below(4) {
        0 => MARK_LINE - 1,
        1 => text.len() - 1,
        _ => MARK_LINE - 1 + FRAME_LINE * rng.below(text.len() / FRAME_LINE + 1),
    }
}

fn remove_newline(rng: &mut Rng, text: &mut Vec<u8>) {
    let at = newline(rng, text);
    text.remove(at);
}

fn set_newline(rng: &mut Rng, text: &mut Vec<u8>) {
    let at = newline(rng, text);
    text[at] = rng.pick(b"0 \r\0\x0b");
}

fn repeat_last_line(text: &mut Vec<u8>, len: usize) {
    let line = text[text.len() - FRAME_LINE..].to_vec();
    text.extend(line.into_iter().cycle().take(len.saturating_sub(text.len())));
}

/// What the program has to print for a text.
fn expected(text: &[u8]) -> (Answer, String) {
    match judged(text) {
        Ok(judged) => (Answer::Done, judged_lines(&judged)),
        Err(refusal) => (Answer::Refusal(refusal), format!("R{refusal:02}\n")),
    }
}

fn judged(text: &[u8]) -> Result<Judged, u32> {
    if text.len() > LONGEST {
        return Err(TOO_LONG);
    }
    let (clean, frames) = mark_and_frames(text).ok_or(BAD_FRAMES)?;
    judge(&frames, clean, frames.len() / FRAME * VERDICT)
}

fn mark_and_frames(text: &[u8]) -> Option<(u8, Vec<u8>)> {
    let mut lines = text.strip_suffix(b"\n")?.split(|byte| *byte == b'\n');
    let clean = match lines.next()? {
        b"00" => 0,
        b"01" => 1,
        _ => return None,
    };
    let mut frames = Vec::new();
    for (at, line) in lines.enumerate() {
        frames.extend(bytes_of(line).filter(|bytes| is_frame(at, bytes))?);
    }
    Some((clean, frames))
}

/// As long as a frame, with all values in the range that they have in line `at` of the frames.
fn is_frame(at: usize, bytes: &[u8]) -> bool {
    bytes.len() == FRAME && Pair::read(bytes).is_in_range(at)
}

/// The bytes of a line of lower-case hex.
fn bytes_of(line: &[u8]) -> Option<Vec<u8>> {
    if line.len() % 2 != 0 {
        return None;
    }
    line.chunks(2).map(|digits| Some(value(digits[0])? << 4 | value(digits[1])?)).collect()
}

fn value(digit: u8) -> Option<u8> {
    match digit {
        b'0'..=b'9' => Some(digit - b'0'),
        b'a'..=b'f' => Some(digit - b'a' + 10),
        _ => None,
    }
}

fn judged_lines(judged: &Judged) -> String {
    let verdicts: Vec<String> = judged.verdicts.chunks(VERDICT).map(|verdict| hex(verdict) + "\n").collect();
    let [slot, pair, writable, clean, refused, differ] = judged.judgement;
    let pair = hex(&(pair as u32).to_le_bytes());
    format!("{}{slot:02x}{pair}{writable:02x}{clean:02x}{refused:02x}{differ:02x}\n", verdicts.concat())
}

/// The first end of the input is the end of the text: one more character after it, and an end again, change nothing.
fn first_end(run: &mut Run, program: &str) -> Checked {
    let text = EXAMPLE.as_bytes();
    let found = output_of_reads(program, &[text, b"", b"0", b""]);
    same(run, text, "whole, then an end, a character and an end".to_string(), found)
}

fn compare(run: &mut Run, program: &str, text: &[u8]) -> Checked {
    let pieces = random_pieces(&mut run.rng, text.len());
    let found = output(program, text, &pieces);
    same(run, text, format!("up to {pieces:?}"), found)
}

fn same(run: &mut Run, text: &[u8], handed_over: String, found: io::Result<Output>) -> Checked {
    let (answer, expected) = expected(text);
    let equal = found.as_ref().is_ok_and(|found| found.stdout == expected.as_bytes() && found.status.code().is_some());
    run.case(VERDICTS, answer, equal, || Report {
        inputs: vec![("text", text.escape_ascii().to_string()), ("handed over", handed_over)],
        expected: vec![("printed", expected.escape_default().to_string())],
        found: match found {
            Ok(found) => vec![("printed", found.stdout.escape_ascii().to_string()), ("end", found.status.to_string())],
            Err(error) => vec![("not run", error.to_string())],
        },
    })
}

/// Where the text is parted, so that the program has to read more than once: in most runs only at its end.
fn random_pieces(rng: &mut Rng, len: usize) -> Vec<usize> {
    let mut pieces = vec![len];
    if rng.one_in(8) {
        pieces.extend([rng.below(len + 1), rng.below(len + 1)]);
        pieces.sort_unstable();
    }
    pieces
}
