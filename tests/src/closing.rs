//! Random closures for a sheet whose lawful ways can be listed: of corridors at the steps at which its journeys take them,
//! of all corridors out of the start, at the first and the last steps, and at any.

use crate::groups::Groups;
use crate::random::Random;
use crate::step_by_step::offered;
use std::collections::BTreeSet;

/// A closure: the two ends of a corridor, and the step of departure.
type Closure = [u32; 3];

/// The two ends of a corridor.
type Ends = [u32; 2];

/// Closures that leave no journey where there was one are mostly drawn anew, up to so many times.
const DRAWS: usize = 4;

/// Closes corridors of a sheet that has no closures, in most cases.
pub fn close(groups: &mut Groups, random: &mut Random) {
    let corridors: Vec<Ends> = groups.corridors.chunks(5).map(|line| [line[0], line[1]]).collect();
    if corridors.is_empty() || random.percent(30) {
        return;
    }
    let crossings: Vec<Closure> = front_of(groups).iter().flat_map(|places| crossings(places)).collect();
    for _ in 0..DRAWS {
        let drawn = drawn(groups, &corridors, &crossings, random);
        let is_lawful = |&[from, to, step]: &Closure| corridors.contains(&[from, to]) && step <= 255;
        let lawful: BTreeSet<Closure> = drawn.into_iter().filter(is_lawful).collect();
        groups.closures = lawful.into_iter().take(256).flatten().collect();
        if crossings.is_empty() || random.percent(30) || !front_of(groups).is_empty() {
            return;
        }
    }
}

/// The places of each journey of the front.
fn front_of(groups: &Groups) -> Vec<Vec<u32>> {
    let front = offered(&groups.text()).map_or(vec![], |offer| offer.shown());
    front.into_iter().map(|(_, places)| places).collect()
}

/// Closures of one of the sorts.
fn drawn(groups: &Groups, corridors: &[Ends], crossings: &[Closure], random: &mut Random) -> Vec<Closure> {
    let [steps, start] = [groups.head[1], groups.head[2]];
    match random.below(14) {
        0..2 => anywhere(corridors, steps, random),
        2..4 => out_of(start, corridors, random),
        4 => at_the_ends(corridors, steps, random),
        _ if crossings.is_empty() => anywhere(corridors, steps, random),
        _ => on_the_way(crossings, random),
    }
}

/// Closures of any corridors, some of them past the last step.
fn anywhere(corridors: &[Ends], steps: u32, random: &mut Random) -> Vec<Closure> {
    let count = random.from_to(1, 8);
    (0..count).map(|_| with_step(random.pick(corridors), random.from_to(0, steps + 2))).collect()
}

/// Closures that journeys of the front, which have some crossings, meet, or one the other way that they do not meet.
fn on_the_way(crossings: &[Closure], random: &mut Random) -> Vec<Closure> {
    let count = random.pick(&[1, 1, 1, 2, 2, 3]);
    (0..count).flat_map(|_| near(random.pick(crossings), random)).collect()
}

/// The crossings of a journey, each as the closure that would forbid it.
pub fn crossings(places: &[u32]) -> Vec<Closure> {
    let pairs = (0..).zip(places.windows(2)).filter(|(_, pair)| pair[0] != pair[1]);
    pairs.map(|(step, pair)| [pair[0], pair[1], step]).collect()
}

/// Closures of a crossing at its step, for some steps around it, from step 0 on, both ways, or the other way alone.
fn near([from, to, step]: Closure, random: &mut Random) -> Vec<Closure> {
    let [one, other] = [[from, to], [to, from]];
    let last = step + random.from_to(0, 3);
    match random.below(8) {
        0..2 => vec![with_step(one, step)],
        2..5 => run(one, step.saturating_sub(random.from_to(0, 2)), last),
        5 => run(one, 0, last),
        6 => [run(one, step, last), run(other, step, last)].concat(),
        _ => vec![with_step(other, step)],
    }
}

/// Closures of every corridor out of a place, from an early step on.
fn out_of(place: u32, corridors: &[Ends], random: &mut Random) -> Vec<Closure> {
    let first = random.pick(&[0, 0, 0, 1, 2]);
    let last = first + random.from_to(0, 3);
    corridors.iter().filter(|ends| ends[0] == place).flat_map(|&ends| run(ends, first, last)).collect()
}

/// Closures at the first step, at the last ones, and just after them.
fn at_the_ends(corridors: &[Ends], steps: u32, random: &mut Random) -> Vec<Closure> {
    let ends = [0, 0, steps.saturating_sub(1), steps.saturating_sub(1), steps, steps + 1, 255];
    let count = random.from_to(2, 10);
    (0..count).map(|_| with_step(random.pick(corridors), random.pick(&ends))).collect()
}

/// Closures of a corridor from a step to another.
fn run(ends: Ends, first: u32, last: u32) -> Vec<Closure> {
    (first..=last).map(|step| with_step(ends, step)).collect()
}

/// The closure of a corridor at a step.
fn with_step([from, to]: Ends, step: u32) -> Closure {
    [from, to, step]
}
