//! Compares planner_read and planner_write with the reference, on the stored cases and on random inputs, and
//! planner_kind on all 256 bytes; planner_read also on a sheet with each byte at each position.
//!
//! `compare_sheets [--seed N] [--runs N]`: each run is one text for the reader and five groups for the
//! writer. The exit status is 0 if all answers agree and each refusal number, size and kind of damage came up often.

use planner_tests::cases::{groups_cases, kinds, sheet_cases};
use planner_tests::compare::{compare_kind, compare_reading, compare_writing};
use planner_tests::damage::of_groups::{GROUP_DAMAGES, damage_groups};
use planner_tests::damage::of_text::{TEXT_DAMAGES, damage_text, random_bytes};
use planner_tests::groups::{Groups, random_groups};
use planner_tests::program::{self, ByRefusal, Counts, Options, Tallies};
use planner_tests::random::Random;
use std::process::ExitCode;

const SHEET_CASES: &str = include_str!("../../cases/sheets.txt");
const GROUPS_CASES: &str = include_str!("../../cases/groups.txt");
const KINDS: &str = include_str!("../../cases/kinds.txt");

/// A sheet with a line of each kind, in which each byte is tried at each position.
const SHORT_SHEET: &[u8] = b"S,12,9,0,11,14\n\
    W,0,1,0,5\nW,1,0,0,0\nW,2,7,60,0\nW,3,0,0,1\nW,4,1,2,3\nW,5,0,0,0\n\
    W,6,1,0,5\nW,7,0,9,0\nW,8,7,60,0\nW,9,0,0,1\nW,10,1,2,3\nW,11,0,0,0\n\
    C,0,10,1,2,3\nX,0,10,4\nO,1,2,30\n";

/// The count of bytes of the longest sheet that is served.
const LONGEST: usize = 14_536;

/// The sizes of texts that must come up.
const SIZES: [&str; 3] = ["empty", "served with 256 lines of a kind", "served and longest"];

/// How many inputs met each refusal number, also at a wait or a closure alone, 3 after the last line, each size and each
/// kind of damage.
#[derive(Default)]
struct Tally {
    read: ByRefusal,
    written: ByRefusal,
    waits_read: ByRefusal,
    waits_written: ByRefusal,
    closures_read: ByRefusal,
    closures_written: ByRefusal,
    waits_lacking: [u64; 2],
    sizes: Tallies<{ SIZES.len() }>,
    text_damages: Tallies<{ TEXT_DAMAGES.len() }>,
    group_damages: Tallies<{ GROUP_DAMAGES.len() }>,
}

fn main() -> ExitCode {
    program::run("compare_sheets", 100_000, compared)
}

/// Runs all comparisons; hands back what came up, or the first failure.
fn compared(options: &Options) -> Result<Vec<Counts>, String> {
    let mut tally = Tally::default();
    let mut random = program::runs(options, |_, random| {
        compare_random_text(random, &mut tally)?;
        compare_random_groups(random, &mut tally)
    })?;
    let cases = compare_cases(&mut random)?;
    println!("{cases} stored cases");
    compare_kinds()?;
    println!("256 kinds of bytes");
    let texts = compare_each_byte(&mut random)?;
    println!("{texts} texts with each byte at each position");
    Ok(counts(&tally))
}

/// Compares the readers on a random text, mostly a damaged one.
fn compare_random_text(random: &mut Random, tally: &mut Tally) -> Result<(), String> {
    let text = if random.percent(5) { random_bytes(random) } else { random_text(random, tally) };
    let answer = compare_reading(&text, random)?;
    tally.read[answer.refusal as usize] += 1;
    tally.waits_read[answer.refusal as usize] += u64::from(has_line_at(&text, b'W', answer.line));
    tally.closures_read[answer.refusal as usize] += u64::from(has_line_at(&text, b'X', answer.line));
    tally.waits_lacking[0] += u64::from(answer.refusal == 3 && ends_before(&text, answer.line));
    tally.sizes[0] += u64::from(text.is_empty());
    tally.sizes[1] += u64::from(answer.lines[1..].contains(&256));
    tally.sizes[2] += u64::from(answer.refusal == 0 && text.len() == LONGEST);
    Ok(())
}

/// The text of random groups, in four of five cases damaged.
fn random_text(random: &mut Random, tally: &mut Tally) -> Vec<u8> {
    let mut text = random_groups(random).text();
    if random.percent(80) {
        program::count(&mut tally.text_damages, &TEXT_DAMAGES, &damage_text(&mut text, random));
    }
    text
}

/// Compares the writers on random groups, in three of five cases damaged.
fn compare_random_groups(random: &mut Random, tally: &mut Tally) -> Result<(), String> {
    let mut groups = random_groups(random);
    if random.percent(60) {
        program::count(&mut tally.group_damages, &GROUP_DAMAGES, &damage_groups(&mut groups, random));
    }
    let len = random_buffer_len(&groups, random);
    let answer = compare_writing(&groups, len, random)?;
    tally.written[answer.refusal as usize] += 1;
    let text = groups.text();
    tally.waits_written[answer.refusal as usize] += u64::from(has_line_at(&text, b'W', answer.line));
    tally.closures_written[answer.refusal as usize] += u64::from(has_line_at(&text, b'X', answer.line));
    tally.waits_lacking[1] += u64::from(answer.refusal == 3 && ends_before(&text, answer.line));
    Ok(())
}

/// Whether the line with a number, from 1, has a letter; 0 is no line.
fn has_line_at(text: &[u8], letter: u8, line: u32) -> bool {
    let before = (line as usize).checked_sub(1);
    let line = before.and_then(|before| text.split_inclusive(|&byte| byte == b'\n').nth(before));
    line.is_some_and(|line| line[0] == letter)
}

/// Whether a text that is not empty ends before the line with a number.
fn ends_before(text: &[u8], line: u32) -> bool {
    !text.is_empty() && text.split_inclusive(|&byte| byte == b'\n').count() < line as usize
}

/// The length of a buffer for groups: exactly their text's, one less, one more, or another.
fn random_buffer_len(groups: &Groups, random: &mut Random) -> usize {
    let exact = groups.text().len();
    match random.below(8) {
        0..3 => exact,
        3 => exact.saturating_sub(1),
        4 => exact + 1,
        5 => random.below(exact + 1),
        6 => exact + random.below(100),
        _ => random.pick(&[0, 16_384]),
    }
}

/// Compares on the stored cases, each also with the answer stored beside it; hands back how many there are.
fn compare_cases(random: &mut Random) -> Result<usize, String> {
    let sheets = sheet_cases(SHEET_CASES);
    for case in &sheets {
        let answer = compare_reading(&case.text, random)
            .map_err(|difference| format!("stored case {:?}: {difference}", case.remark))?;
        expect_answer(&case.remark, (answer.refusal, answer.line), (case.refusal, case.line))?;
    }
    let groups = groups_cases(GROUPS_CASES);
    for case in &groups {
        let answer = compare_writing(&case.groups, case.buffer, random)
            .map_err(|difference| format!("stored case {:?}: {difference}", case.remark))?;
        expect_answer(&case.remark, (answer.refusal, answer.line), (case.refusal, case.line))?;
    }
    Ok(sheets.len() + groups.len())
}

/// Compares the kinds of all bytes, also with those stored.
fn compare_kinds() -> Result<(), String> {
    let stored = kinds(KINDS);
    for byte in 0..=255 {
        let kind = compare_kind(byte)?;
        if Some(&kind) != stored.get(usize::from(byte)) {
            return Err(format!("byte {byte} has the kind {kind}, not the stored one"));
        }
    }
    if stored.len() == 256 { Ok(()) } else { Err(format!("{} kinds are stored", stored.len())) }
}

/// Compares the readers on the short sheet with each byte at each position; hands back how many texts there are.
fn compare_each_byte(random: &mut Random) -> Result<usize, String> {
    let texts = (0..SHORT_SHEET.len()).flat_map(|at| (0..=255).map(move |byte| (at, byte)));
    let mut count = 0;
    for (at, byte) in texts {
        let mut text = SHORT_SHEET.to_vec();
        text[at] = byte;
        compare_reading(&text, random)?;
        count += 1;
    }
    Ok(count)
}

/// A failure where a stored case's refusal number and line are not those expected.
fn expect_answer(remark: &str, answer: (u32, u32), expected: (u32, u32)) -> Result<(), String> {
    if answer == expected {
        Ok(())
    } else {
        Err(format!("stored case {remark:?}: refusal and line are {answer:?}, expected {expected:?}"))
    }
}

/// How many inputs met each thing that must come up.
fn counts(tally: &Tally) -> Vec<Counts> {
    vec![
        Counts::of_refusals("read, by refusal number", &[0, 1, 2, 3, 4, 5, 6, 7, 15, 16], &tally.read),
        Counts::of_refusals("written, by refusal number", &[0, 2, 3, 4, 5, 6, 7, 12, 15, 16], &tally.written),
        Counts::of_refusals("read, at a wait", &[2, 3, 4], &tally.waits_read),
        Counts::of_refusals("written, at a wait", &[3, 4], &tally.waits_written),
        Counts::of("3 after the last line, for want of a wait", &["read", "written"], &tally.waits_lacking),
        Counts::of_refusals("read, at a closure", &[2, 3, 4, 5, 6, 7, 15], &tally.closures_read),
        Counts::of_refusals("written, at a closure", &[4, 5, 6, 7, 15], &tally.closures_written),
        Counts::of("texts", &SIZES, &tally.sizes),
        Counts::of("damage to texts", &TEXT_DAMAGES, &tally.text_damages),
        Counts::of("damage to groups", &GROUP_DAMAGES, &tally.group_damages),
    ]
}
