//! Compares planner_front and planner_journey with the step-by-step reference, on the stored cases and on random
//! sheets.
//!
//! `compare_fronts [--seed N] [--runs N]`: each run is one small sheet, with several calls, among them one for each of
//! its journeys with room, and five damaged texts, with one call of the front and one of a journey each. The exit status
//! is 0 if all answers and all cells of all lent arrays agree, a third of the small sheets have a tie, the time to unload
//! changes the front of a sixth of them, the closures that of a fifth and the waiting costs of the places that of a tenth,
//! and each refusal number, family, size, way in which the tie rule decides, change by unloading, by closures or by waiting
//! costs, room and kind of damage came up often.

use planner_tests::cases::{Asked, FrontCase, front_cases};
use planner_tests::closures;
use planner_tests::compare_search::{Filled, Tried};
use planner_tests::damage::of_text::TEXT_DAMAGES;
use planner_tests::families::{FAMILIES, random_family};
use planner_tests::page::line_of;
use planner_tests::program::{self, ByRefusal, Counts, Options, Tallies};
use planner_tests::random::Random;
use planner_tests::small::{damaged_text, small_text};
use planner_tests::step_by_step::Offer;
use planner_tests::ties::{Choice, DECIDED};
use planner_tests::unloading;
use planner_tests::waits;
use std::process::ExitCode;

const FRONT_CASES: &str = include_str!("../../cases/fronts.txt");

/// So many texts are damaged in each run.
const DAMAGED: usize = 5;

/// The refusals of a call of the front and of a journey; 0 is a call that is served.
const FRONT_REFUSALS: &[usize] = &[0, 1, 2, 3, 4, 5, 6, 7, 8, 9, 15, 16];
const JOURNEY_REFUSALS: &[usize] = &[0, 1, 2, 3, 4, 5, 6, 7, 8, 10, 11, 15, 16];

/// The sizes of fronts that must come up.
const SIZES: [&str; 5] = ["empty", "one cost", "two costs", "three costs", "more"];

/// A sheet with a tie, two journeys of a front cost that arrive at its earliest step, must come up once in so many sheets.
const TIES: u64 = 3;

/// A sheet whose front is another one without the time to unload must come up once in so many sheets.
const BY_UNLOADING: u64 = 6;

/// A sheet whose front is another one without the closures must come up once in so many sheets.
const BY_CLOSURES: u64 = 5;

/// A sheet whose front is another one with the start's waiting cost at each place must come up once in so many sheets.
const BY_WAITS: u64 = 10;

/// The lengths of lent arrays that must come up, and the number of a journey.
const ROOMS: [&str; 7] = [
    "arrivals just fit",
    "one arrival too many",
    "costs just fit",
    "one cost too many",
    "path just fits",
    "one place too many",
    "the number after the last",
];

/// How many calls or sheets met each refusal number, family, size, tie, change by unloading, by closures or by waiting costs,
/// room and kind of damage.
#[derive(Default)]
struct Tally {
    front: ByRefusal,
    journey: ByRefusal,
    families: Tallies<{ FAMILIES.len() }>,
    sizes: Tallies<{ SIZES.len() }>,
    tied: u64,
    decided: Tallies<{ DECIDED.len() }>,
    by_unloading: Changed<{ unloading::CHANGES.len() }>,
    by_closures: Changed<{ closures::CHANGES.len() }>,
    by_waits: Changed<{ waits::CHANGES.len() }>,
    rooms: Tallies<{ ROOMS.len() }>,
    damages: Tallies<{ TEXT_DAMAGES.len() }>,
}

/// How many sheets have another front without some of their lines or with other numbers, and how many meet each of some
/// changes.
#[derive(Default)]
struct Changed<const N: usize> {
    fronts: u64,
    changes: Tallies<N>,
}

impl<const N: usize> Changed<N> {
    /// Counts a sheet by whether its front differs and by the changes that it meets.
    fn count(&mut self, differs: bool, changes: [bool; N]) {
        self.fronts += u64::from(differs);
        for (count, is_met) in self.changes.iter_mut().zip(changes) {
            *count += u64::from(is_met);
        }
    }
}

fn main() -> ExitCode {
    program::run("compare_fronts", 30_000, compared)
}

/// Runs all comparisons; hands back what came up, or the first failure.
fn compared(options: &Options) -> Result<Vec<Counts>, String> {
    let mut tally = Tally::default();
    let mut random = program::runs(options, |_, random| compare_run(random, &mut tally))?;
    let cases = compare_cases(&mut random)?;
    println!("{} small sheets, {} damaged texts, {cases} stored cases", options.runs, DAMAGED as u64 * options.runs);
    Ok(counts(&tally))
}

/// How often each thing that must come up did.
fn counts(tally: &Tally) -> Vec<Counts> {
    let Tally { by_unloading, by_closures, by_waits, .. } = tally;
    vec![
        Counts::of_refusals("calls of the front, by refusal number", FRONT_REFUSALS, &tally.front),
        Counts::of_refusals("calls of a journey, by refusal number", JOURNEY_REFUSALS, &tally.journey),
        Counts::of("families of small sheets", &FAMILIES.map(|family| family.name), &tally.families),
        Counts::of("fronts of small sheets", &SIZES, &tally.sizes),
        Counts::of("small sheets", &["with a tie"], &[tally.tied]).once_in(TIES),
        Counts::of("small sheets on which the tie rule decides", &DECIDED, &tally.decided),
        Counts::of("small sheets", &["whose front unloading changes"], &[by_unloading.fronts]).once_in(BY_UNLOADING),
        Counts::of("small sheets and unloading", &unloading::CHANGES, &by_unloading.changes),
        Counts::of("small sheets", &["whose front closures change"], &[by_closures.fronts]).once_in(BY_CLOSURES),
        Counts::of("small sheets and closures", &closures::CHANGES, &by_closures.changes),
        Counts::of("small sheets", &["whose front waits by place change"], &[by_waits.fronts]).once_in(BY_WAITS),
        Counts::of("small sheets and waits by place", &waits::CHANGES, &by_waits.changes),
        Counts::of("rooms of calls", &ROOMS, &tally.rooms),
        Counts::of("damage to texts", &TEXT_DAMAGES, &tally.damages),
    ]
}

/// Compares on one small sheet and on some damaged texts.
fn compare_run(random: &mut Random, tally: &mut Tally) -> Result<(), String> {
    let family = random_family(random);
    let tried = Tried::new(small_text(&FAMILIES[family], random));
    tally.families[family] += 1;
    compare_calls(&tried, random, tally)?;
    for _ in 0..DAMAGED {
        let (text, done) = damaged_text(random);
        program::count(&mut tally.damages, &TEXT_DAMAGES, &done);
        let tried = Tried::new(text);
        compare_front(&tried, random, tally)?;
        compare_journey(&tried, None, random, tally)?;
    }
    Ok(())
}

/// Compares calls on a small sheet: of the front, of each journey on it, with room, and of a journey with any number.
fn compare_calls(tried: &Tried, random: &mut Random, tally: &mut Tally) -> Result<(), String> {
    let offer = tried.offer().expect("a small sheet is not refused");
    let front = offer.steps();
    tally.sizes[front.len().min(SIZES.len() - 1)] += 1;
    count_ties(offer, tally);
    count_changes(tried.text(), offer, tally);
    compare_front(tried, random, tally)?;
    compare_front(tried, random, tally)?;
    for (number, &step) in (0..).zip(&front) {
        let (answer, _) = tried.compare_journey(number, [5 * offer.arrivals(), step as usize + 1], random)?;
        assert_eq!(answer.refusal, 0, "there is room for each journey of a small sheet");
        compare_journey(tried, Some(number), random, tally)?;
    }
    compare_journey(tried, None, random, tally)
}

/// Counts a sheet by its ties: the front costs for which several journeys arrive at the earliest step.
fn count_ties(offer: &Offer, tally: &mut Tally) {
    let choices: Vec<Choice> = offer.journeys().into_iter().map(Choice::among).collect();
    tally.tied += u64::from(choices.iter().any(Choice::is_tie));
    for (how, count) in tally.decided.iter_mut().enumerate() {
        *count += u64::from(choices.iter().any(|choice| choice.decided()[how]));
    }
}

/// Counts a sheet by what its time to unload, its closures and its waiting costs change.
fn count_changes(text: &[u8], offer: &Offer, tally: &mut Tally) {
    if let Some(fronts) = unloading::Fronts::of(text, offer) {
        tally.by_unloading.count(fronts.differ(), fronts.changes());
    }
    if let Some(fronts) = closures::Fronts::of(text, offer) {
        tally.by_closures.count(fronts.differ(), fronts.changes());
    }
    if let Some(fronts) = waits::Fronts::of(text, offer) {
        tally.by_waits.count(fronts.differ(), fronts.changes());
    }
}

/// Compares a call of the front, with room at or near the need.
fn compare_front(tried: &Tried, random: &mut Random, tally: &mut Tally) -> Result<(), String> {
    let needs = tried.offer().map_or([0, 0], |offer| [offer.arrivals(), offer.steps().len()]);
    let lens = [random_len(5, needs[0], random), random_len(4, needs[1], random)];
    let (answer, _) = tried.compare_front(lens, random)?;
    tally.front[answer.refusal as usize] += 1;
    count_room(&mut tally.rooms[0..2], needs[0], lens[0] / 5);
    count_room(&mut tally.rooms[2..4], needs[1], lens[1] / 4);
    Ok(())
}

/// Compares a call of a journey, by default of any number, with room at or near the need.
fn compare_journey(tried: &Tried, number: Option<u32>, random: &mut Random, tally: &mut Tally) -> Result<(), String> {
    let (arrivals, steps) = tried.offer().map_or((0, vec![]), |offer| (offer.arrivals(), offer.steps()));
    let number = number.unwrap_or_else(|| random_number(steps.len() as u32, random));
    let places = steps.get(number as usize).map_or(random.below(8), |&step| step as usize + 1);
    let lens = [random_len(5, arrivals, random), random_len(1, places, random)];
    let (answer, _) = tried.compare_journey(number, lens, random)?;
    tally.journey[answer.refusal as usize] += 1;
    count_room(&mut tally.rooms[4..6], if [0, 11].contains(&answer.refusal) { places } else { 0 }, lens[1]);
    tally.rooms[6] += u64::from(!steps.is_empty() && number as usize == steps.len());
    Ok(())
}

/// Counts a room that is just enough for what there is, or one too small.
fn count_room(rooms: &mut [u64], need: usize, room: usize) {
    rooms[0] += u64::from(need > 0 && room == need);
    rooms[1] += u64::from(need > 0 && room + 1 == need);
}

/// The length of an array for so many rows of some width: mostly room for just so many, at times for one less.
fn random_len(width: usize, need: usize, random: &mut Random) -> usize {
    let rows = match random.below(12) {
        0..6 => need,
        6..8 => need.saturating_sub(1),
        8 => need + 1,
        9 => need + random.below(40),
        10 => random.below(need + 1),
        _ => return 0,
    };
    rows * width + random.below(width)
}

/// A journey's number: on the front, the first past it, or far past it.
fn random_number(count: u32, random: &mut Random) -> u32 {
    match random.below(8) {
        0..3 => random.from_to(0, count),
        3..6 => count,
        6 => count + random.from_to(1, 9),
        _ => random.pick(&[255, 256, 65_536, 1 << 31, u32::MAX - 1, u32::MAX]),
    }
}

/// Compares on the stored cases; hands back how many there are.
fn compare_cases(random: &mut Random) -> Result<usize, String> {
    let cases = front_cases(FRONT_CASES);
    for case in &cases {
        compare_case(case, random).map_err(|difference| format!("stored case {:?}: {difference}", case.name))?;
    }
    Ok(cases.len())
}

/// Compares the calls on a stored case, and the planner's answers with those stored.
fn compare_case(case: &FrontCase, random: &mut Random) -> Result<(), String> {
    let page = page_of(case, random)?;
    if page == case.page { Ok(()) } else { Err(format!("the answers are\n{page}and not\n{}", case.page)) }
}

/// The planner's answer to what a stored case asks.
fn page_of(case: &FrontCase, random: &mut Random) -> Result<String, String> {
    let tried = Tried::new(case.text.clone());
    match case.asked {
        Asked::Front(lens) => front_page(&tried, lens, random),
        Asked::Journey(number, lens) => journey_page(&tried, number, lens, random),
    }
}

/// The front: the counts, the rows of the arrivals table, the journeys; or the refusal.
fn front_page(tried: &Tried, lens: [usize; 2], random: &mut Random) -> Result<String, String> {
    let (answer, Filled { arrivals, .. }) = tried.compare_front(lens, random)?;
    if answer.refusal > 0 {
        return Ok(format!("R,{},{}\n", answer.refusal, answer.line));
    }
    let mut page = format!("F,{},{}\n", answer.costs, answer.arrivals);
    page.extend(arrivals.chunks(5).take(answer.arrivals as usize).map(|row| line_of('A', row)));
    for number in (0..).take(answer.costs as usize) {
        page.push_str(&journey_page(tried, number, [lens[0], 256], random)?);
    }
    Ok(page)
}

/// A journey: its cost with the arrival step, and its places; or the refusal.
fn journey_page(tried: &Tried, number: u32, lens: [usize; 2], random: &mut Random) -> Result<String, String> {
    let (answer, Filled { other: path, .. }) = tried.compare_journey(number, lens, random)?;
    if answer.refusal > 0 {
        return Ok(format!("R,{},{}\n", answer.refusal, answer.line));
    }
    let [a, b, c] = answer.cost;
    Ok(line_of('J', &[a, b, c, answer.arrival]) + &line_of('P', &path[..=answer.arrival as usize]))
}
