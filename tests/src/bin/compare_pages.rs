//! Compares the page that target/bin/plan prints, run as a process, with the page of the references' answers, on
//! stored texts and on random ones.
//!
//! `compare_pages [--seed N] [--runs N]`: each run is one small sheet and five damaged texts, each twentieth run also a
//! sheet with a long front. The exit status is 0 if all pages agree and each refusal number, family, size and kind of
//! damage came up often.

use planner_tests::cases::{front_cases, sheet_cases};
use planner_tests::damage::of_text::TEXT_DAMAGES;
use planner_tests::families::{FAMILIES, random_family};
use planner_tests::layers::layered_text;
use planner_tests::page::page_of;
use planner_tests::process;
use planner_tests::program::{self, ByRefusal, Counts, Options, Tallies};
use planner_tests::random::Random;
use planner_tests::sheet::read_sheet;
use planner_tests::small::{damaged_text, is_small, small_text};
use planner_tests::step_by_step::offered;
use std::process::ExitCode;

const SHEET_CASES: &str = include_str!("../../cases/sheets.txt");
const FRONT_CASES: &str = include_str!("../../cases/fronts.txt");

/// So many texts are damaged in each run.
const DAMAGED: u64 = 5;

/// A sheet with a long front is tried once in so many runs.
const LAYERED: u64 = 20;

/// The sizes of pages that must come up.
const SIZES: [&str; 4] = ["no journey", "one journey", "two to nine", "ten or more"];

/// How many texts met each refusal number, each family, each size and each kind of damage.
#[derive(Default)]
struct Tally {
    refusals: ByRefusal,
    families: Tallies<{ FAMILIES.len() }>,
    sizes: Tallies<{ SIZES.len() }>,
    damages: Tallies<{ TEXT_DAMAGES.len() }>,
}

fn main() -> ExitCode {
    program::run("compare_pages", 1_500, compared)
}

/// Runs all comparisons; hands back what came up, or the first failure.
fn compared(options: &Options) -> Result<Vec<Counts>, String> {
    let mut tally = Tally::default();
    program::runs(options, |run, random| compare_run(run, random, &mut tally))?;
    let cases = compare_cases()?;
    println!("{} random texts, {cases} stored texts", options.runs * (1 + DAMAGED) + options.runs / LAYERED);
    Ok(counts(&tally))
}

/// How often each thing that must come up did.
fn counts(tally: &Tally) -> Vec<Counts> {
    vec![
        Counts::of_refusals("pages by refusal number", &[0, 1, 2, 3, 4, 5, 6, 7, 8, 9, 15, 16], &tally.refusals),
        Counts::of("pages that are served", &SIZES, &tally.sizes),
        Counts::of("families of small sheets", &FAMILIES.map(|family| family.name), &tally.families),
        Counts::of("damage to texts", &TEXT_DAMAGES, &tally.damages),
    ]
}

/// Compares on one small sheet and on some damaged texts, at times on a sheet with a long front.
fn compare_run(run: u64, random: &mut Random, tally: &mut Tally) -> Result<(), String> {
    let family = random_family(random);
    tally.families[family] += 1;
    count_page(&compare_page(&small_text(&FAMILIES[family], random))?, tally);
    for _ in 0..DAMAGED {
        let (text, done) = damaged_text(random);
        program::count(&mut tally.damages, &TEXT_DAMAGES, &done);
        count_page(&compare_page(&text)?, tally);
    }
    if run.is_multiple_of(LAYERED) {
        count_page(&compare_page(&layered_text(random))?, tally);
    }
    Ok(())
}

/// Counts a page by its refusal number, or by how many journeys it has.
fn count_page(page: &str, tally: &mut Tally) {
    let numbers: Vec<usize> = page.lines().next().map_or(vec![], numbers_of);
    if page.starts_with('R') {
        tally.refusals[numbers[0]] += 1;
        return;
    }
    tally.refusals[0] += 1;
    tally.sizes[match numbers[0] {
        few @ 0..2 => few,
        2..10 => 2,
        _ => 3,
    }] += 1;
}

/// The numbers of a line.
fn numbers_of(line: &str) -> Vec<usize> {
    line.split(',').skip(1).map(|digits| digits.parse().expect("a line of a page has numbers")).collect()
}

/// Compares on the stored texts whose lawful ways can be listed; hands back how many there are.
fn compare_cases() -> Result<usize, String> {
    let sheets = sheet_cases(SHEET_CASES).into_iter().map(|case| (case.remark, case.text));
    let fronts = front_cases(FRONT_CASES).into_iter().map(|case| (case.name, case.text));
    let cases: Vec<_> = sheets.chain(fronts).filter(|(_, text)| is_small(&read_sheet(text))).collect();
    for (name, text) in &cases {
        compare_page(text).map_err(|difference| format!("stored case {name:?}: {difference}"))?;
    }
    Ok(cases.len())
}

/// The page of a text, on which the program and the references agree, or a report of the difference.
fn compare_page(text: &[u8]) -> Result<String, String> {
    let page = page_of(&offered(text));
    process::compare_page(process::plan, text, &page)?;
    Ok(page)
}
