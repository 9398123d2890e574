//! Compares the page that target/bin/month_page prints, run as a process, with the page of tests/src/month.rs, on stored
//! months, on each byte at each position of a line and on random months.
//!
//! `compare_months [--seed N] [--runs N]`: each run is one month in order and three damaged ones, each tenth run also a month
//! with a line too many. The exit status is 0 if all pages agree and each refusal number, also of the 4,097th line,
//! count of lines, way to draw figures, length, kind of damage, remainder of a mean, neighbour of a half, size of a total,
//! and place of the least and the greatest came up often.

use planner_tests::cases::month_cases;
use planner_tests::damage::of_months::MONTH_DAMAGES;
use planner_tests::month::{MOST_LINES, costs_of, page_of};
use planner_tests::months::{COUNTS, FIGURES, damaged_month, month_beyond, random_month};
use planner_tests::process;
use planner_tests::program::{self, ByRefusal, Counts, Options, Tallies};
use planner_tests::random::Random;
use std::process::ExitCode;

const MONTH_CASES: &str = include_str!("../../cases/months.txt");

/// So many months are damaged in each run.
const DAMAGED: u64 = 3;

/// A month with a line too many is tried once in so many runs.
const BEYOND: u64 = 10;

/// Each of its bytes is replaced by each byte.
const LINE: &[u8] = b"M,1,20,3\n";

/// So many bytes decide: 4,097 lines of 29.
const DECIDING: usize = 29 * (MOST_LINES + 1);

/// The lengths of months that must come up.
const LENGTHS: [&str; 3] = ["fewer than 118,813 bytes", "118,813 bytes", "more"];

/// The means that must come up, by where they lie between two whole numbers, those at a half by the even neighbour, and the
/// totals.
const MEANS: [&str; 4] = ["whole", "nearer to the lower", "at a half", "nearer to the upper"];
const HALVES: [&str; 4] = ["to the lower", "to the upper", "of 4,096 lines, to the lower", "of 4,096, to the upper"];
const TOTALS: [&str; 2] = ["of up to 32 bits", "of more"];

/// The lines that must come up as the only ones with the least or with the greatest.
const EXTREMES: [&str; 4] = ["least first", "least last", "greatest first", "greatest last"];

/// How many months met each refusal number, at any line and at the 4,097th, each count of lines, way to draw figures, length
/// and kind of damage, and how many figures met each kind of mean, half, total and extreme.
#[derive(Default)]
struct Tally {
    refusals: ByRefusal,
    beyond: ByRefusal,
    counts: Tallies<{ COUNTS.len() }>,
    figures: Tallies<{ FIGURES.len() }>,
    lengths: Tallies<{ LENGTHS.len() }>,
    damages: Tallies<{ MONTH_DAMAGES.len() }>,
    means: Tallies<{ MEANS.len() }>,
    halves: Tallies<{ HALVES.len() }>,
    totals: Tallies<{ TOTALS.len() }>,
    extremes: Tallies<{ EXTREMES.len() }>,
}

fn main() -> ExitCode {
    program::run("compare_months", 1_200, compared)
}

/// Runs all comparisons; hands back what came up, or the first failure.
fn compared(options: &Options) -> Result<Vec<Counts>, String> {
    let mut tally = Tally::default();
    program::runs(options, |run, random| compare_run(run, random, &mut tally))?;
    let bytes = compare_bytes()?;
    let cases = compare_cases()?;
    let months = options.runs * (1 + DAMAGED) + options.runs / BEYOND;
    println!("{months} random months, {bytes} with each byte at each position, {cases} stored months");
    Ok(counts(&tally))
}

/// How often each thing that must come up did.
fn counts(tally: &Tally) -> Vec<Counts> {
    vec![
        Counts::of_refusals("pages by refusal number", &[0, 2, 4, 14], &tally.refusals),
        Counts::of_refusals("refusals of a 4,097th line", &[2, 4, 14], &tally.beyond),
        Counts::of("lines of months in order", &COUNTS, &tally.counts),
        Counts::of("figures of months in order", &FIGURES, &tally.figures),
        Counts::of("lengths of months", &LENGTHS, &tally.lengths),
        Counts::of("damage to months", &MONTH_DAMAGES, &tally.damages),
        Counts::of("means of pages that are served", &MEANS, &tally.means),
        Counts::of("means at a half", &HALVES, &tally.halves).once_in(400),
        Counts::of("totals of pages that are served", &TOTALS, &tally.totals),
        Counts::of("the only extremes of two lines or more", &EXTREMES, &tally.extremes),
    ]
}

/// Compares on one month in order and on some damaged ones, at times on one with a line too many.
fn compare_run(run: u64, random: &mut Random, tally: &mut Tally) -> Result<(), String> {
    let (month, figures) = random_month(random);
    count_lines(&month, &mut tally.counts);
    program::count(&mut tally.figures, &FIGURES, &[figures]);
    compare_month(&month, tally)?;
    for _ in 0..DAMAGED {
        let (month, done) = damaged_month(random);
        program::count(&mut tally.damages, &MONTH_DAMAGES, &done);
        compare_month(&month, tally)?;
    }
    if run.is_multiple_of(BEYOND) {
        compare_month(&month_beyond(random), tally)?;
    }
    Ok(())
}

/// Counts a month in order by its lines.
fn count_lines(month: &[u8], counts: &mut [u64]) {
    let lines = month.iter().filter(|&&byte| byte == b'\n').count();
    counts[match lines {
        few @ 0..2 => few,
        2..10 => 2,
        10..4_095 => 3,
        4_095..4_098 => lines - 4_095 + 4,
        _ => 7,
    }] += 1;
}

/// Compares on a month, and counts it by its length and by what its page says.
fn compare_month(month: &[u8], tally: &mut Tally) -> Result<(), String> {
    process::compare_page(process::month_page, month, &page_of(month))?;
    tally.lengths[side(month.len(), DECIDING)] += 1;
    match costs_of(month) {
        Err([number, line]) => {
            tally.refusals[number] += 1;
            tally.beyond[number] += u64::from(line > MOST_LINES);
        }
        Ok(costs) => {
            tally.refusals[0] += 1;
            (0..3).for_each(|at| count_figure(&costs.iter().map(|cost| cost[at]).collect::<Vec<_>>(), tally));
        }
    }
    Ok(())
}

/// Counts a figure by its mean and its total, and by where its extremes stand.
fn count_figure(values: &[u128], tally: &mut Tally) {
    let [total, count] = [values.iter().sum(), values.len() as u128];
    let remainder = total % count;
    tally.means[if remainder == 0 { 0 } else { 1 + side(2 * remainder, count) }] += 1;
    if 2 * remainder == count {
        tally.halves[2 * usize::from(values.len() == MOST_LINES) + (total / count % 2) as usize] += 1;
    }
    tally.totals[usize::from(total >> 32 > 0)] += 1;
    let [first, last] = [values[0], values[values.len() - 1]];
    let extremes = [
        values[1..].iter().all(|&value| first < value),
        values[..values.len() - 1].iter().all(|&value| last < value),
        values[1..].iter().all(|&value| first > value),
        values[..values.len() - 1].iter().all(|&value| last > value),
    ];
    for (tally, is_met) in tally.extremes.iter_mut().zip(extremes) {
        *tally += u64::from(is_met && count > 1);
    }
}

/// 0 below a mark, 1 at it, 2 above it.
fn side<T: PartialOrd>(value: T, mark: T) -> usize {
    usize::from(value >= mark) + usize::from(value > mark)
}

/// Compares on a line with each byte at each position; hands back how many these are.
fn compare_bytes() -> Result<usize, String> {
    for at in 0..LINE.len() {
        for byte in 0..=u8::MAX {
            let mut month = LINE.to_vec();
            month[at] = byte;
            process::compare_page(process::month_page, &month, &page_of(&month))?;
        }
    }
    Ok(256 * LINE.len())
}

/// Compares on the stored months, and the reference's pages with those stored; hands back how many there are.
fn compare_cases() -> Result<usize, String> {
    let cases = month_cases(MONTH_CASES);
    for case in &cases {
        let page = page_of(&case.month);
        if page != case.page {
            return Err(format!("stored case {:?}: the page is\n{page}and not\n{}", case.name, case.page));
        }
        process::compare_page(process::month_page, &case.month, &page)
            .map_err(|difference| format!("stored case {:?}: {difference}", case.name))?;
    }
    Ok(cases.len())
}
