//! The values of a sheet, read and written.

use crate::{Cost, Place, Refusal, Step, calls};

/// No sheet that can be written is longer.
const MOST_BYTES: usize = 16_384;

/// The values of a sheet.
#[derive(Clone, Debug, PartialEq, Eq)]
pub struct Sheet {
    /// Count of places, 1 to 64.
    pub places: u32,
    /// The last step, 0 to 255.
    pub steps: Step,
    /// Where a journey starts.
    pub start: Place,
    /// Where a journey ends.
    pub goal: Place,
    /// Steps that unloading takes, 0 to 99. An arrival at the goal counts only if the goal is free from its step to so
    /// many steps after it, and the last of them is not after the sheet's last step.
    pub unloading: u32,
    /// One for each place, from 0 on in turn.
    pub waits: Vec<Wait>,
    /// Up to 256, strictly ascending by (from, to).
    pub corridors: Vec<Corridor>,
    /// Up to 256, strictly ascending by (from, to, step).
    pub closures: Vec<Closure>,
    /// Up to 256, strictly ascending by (place, first, last).
    pub occupancies: Vec<Occupancy>,
}

/// The cost of waiting at a place.
#[derive(Clone, Copy, Debug, PartialEq, Eq)]
pub struct Wait {
    /// The place.
    pub place: Place,
    /// The cost of waiting there one step.
    pub cost: Cost,
}

/// A one-way corridor, crossed in one step.
#[derive(Clone, Copy, Debug, PartialEq, Eq)]
pub struct Corridor {
    /// Where it begins.
    pub from: Place,
    /// Where it ends.
    pub to: Place,
    /// The cost of crossing it.
    pub cost: Cost,
}

/// A corridor that is closed to a cart that would depart by it at one step. The other direction is not closed by it.
#[derive(Clone, Copy, Debug, PartialEq, Eq)]
pub struct Closure {
    /// Where the corridor begins.
    pub from: Place,
    /// Where it ends; the sheet has a corridor from the one to the other.
    pub to: Place,
    /// The step of departure, up to 255; it may lie after the sheet's last step.
    pub step: Step,
}

/// A place that is occupied from the first step to the last, both included.
#[derive(Clone, Copy, Debug, PartialEq, Eq)]
pub struct Occupancy {
    /// The place.
    pub place: Place,
    /// The first step at which it is occupied, not after the sheet's last step.
    pub first: Step,
    /// The last step at which it is occupied, up to 255; it may lie after the sheet's last step.
    pub last: Step,
}

/// The values of a sheet's text. Refuses with the sheet's refusals.
pub fn read(text: &[u8]) -> Result<Sheet, Refusal> {
    let answer = calls::read(text);
    Refusal::check(answer.refusal, answer.line)?;
    let [_, waits, corridors, closures, occupancies] = answer.lines.map(|count| count as usize);
    let [places, steps, start, goal, unloading] = answer.head;
    Ok(Sheet {
        places,
        steps: Step(steps),
        start: Place(start),
        goal: Place(goal),
        unloading,
        waits: rows(&answer.waits, waits).map(wait).collect(),
        corridors: rows(&answer.corridors, corridors).map(corridor).collect(),
        closures: rows(&answer.closures, closures).map(closure).collect(),
        occupancies: rows(&answer.occupancies, occupancies).map(occupancy).collect(),
    })
}

/// The text of a sheet, which reads back as the same values. Refuses with 3 to 7, 15 and 16; the line is the one that
/// the text would have. 3 is for the waits alone, where they are not one for each place in turn.
pub fn write(sheet: &Sheet) -> Result<Vec<u8>, Refusal> {
    let head = [sheet.places, sheet.steps.0, sheet.start.0, sheet.goal.0, sheet.unloading];
    let waits: Vec<u32> = sheet.waits.iter().flat_map(wait_numbers).collect();
    let corridors: Vec<u32> = sheet.corridors.iter().flat_map(corridor_numbers).collect();
    let closures: Vec<u32> = sheet.closures.iter().flat_map(closure_numbers).collect();
    let occupancies: Vec<u32> = sheet.occupancies.iter().flat_map(occupancy_numbers).collect();
    let mut text = vec![0; MOST_BYTES];
    let answer = calls::write(&head, &waits, &corridors, &closures, &occupancies, &mut text);
    Refusal::check(answer.refusal, answer.line)?;
    text.truncate(answer.bytes as usize);
    Ok(text)
}

/// The first rows of an array, each of `N` numbers.
pub(crate) fn rows<const N: usize>(numbers: &[u32], count: usize) -> impl Iterator<Item = [u32; N]> {
    numbers.as_chunks().0[..count].iter().copied()
}

fn wait([place, cost @ ..]: [u32; 4]) -> Wait {
    Wait { place: Place(place), cost }
}

fn wait_numbers(wait: &Wait) -> [u32; 4] {
    let [w1, w2, w3] = wait.cost;
    [wait.place.0, w1, w2, w3]
}

fn corridor([from, to, cost @ ..]: [u32; 5]) -> Corridor {
    Corridor { from: Place(from), to: Place(to), cost }
}

fn corridor_numbers(corridor: &Corridor) -> [u32; 5] {
    let [c1, c2, c3] = corridor.cost;
    [corridor.from.0, corridor.to.0, c1, c2, c3]
}

fn closure([from, to, step]: [u32; 3]) -> Closure {
    Closure { from: Place(from), to: Place(to), step: Step(step) }
}

fn closure_numbers(closure: &Closure) -> [u32; 3] {
    [closure.from.0, closure.to.0, closure.step.0]
}

fn occupancy([place, first, last]: [u32; 3]) -> Occupancy {
    Occupancy { place: Place(place), first: Step(first), last: Step(last) }
}

fn occupancy_numbers(occupancy: &Occupancy) -> [u32; 3] {
    [occupancy.place.0, occupancy.first.0, occupancy.last.0]
}
