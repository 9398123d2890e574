//! A family of random sheets, and how its sheets are drawn.

use crate::groups::{Groups, equal_waits};
use crate::random::Random;
use std::collections::BTreeSet;

/// What the sheets of a family have: counts and steps from a least to a greatest, and costs to be drawn.
#[derive(Clone, Copy)]
pub struct Family {
    pub name: &'static str,
    pub places: [u32; 2],
    pub steps: [u32; 2],
    pub corridors: [u32; 2],
    pub crossing: Costs,
    pub waiting: Waiting,
    pub occupancies: Occupancies,
    pub ends: Ends,
    pub unloading: Unloading,
}

/// How a cost is drawn.
#[derive(Clone, Copy)]
pub enum Costs {
    /// Each figure is one of these.
    Figures(&'static [u32]),
    /// The cost is one of these.
    Whole(&'static [[u32; 3]]),
}

/// How the waiting costs of the places are drawn.
#[derive(Clone, Copy)]
pub enum Waiting {
    /// For each place by itself, or in half of the cases one for all places.
    Any(Costs),
    /// One for all places.
    Equal(Costs),
    /// For each place by itself.
    ByPlace(Costs),
    /// One of the two for the start, the other for all other places.
    AtStart([[u32; 3]; 2]),
}

/// The occupancies of a family: how many, and of how many steps.
#[derive(Clone, Copy)]
pub struct Occupancies {
    pub count: [u32; 2],
    pub longest: u32,
}

/// How the time to unload is drawn.
#[derive(Clone, Copy)]
pub enum Unloading {
    /// None in half of the cases, else mostly short, at times near the last step or past it.
    Any,
    /// One of these.
    Steps(&'static [u32]),
}

/// What is special about the start or the goal.
#[derive(Clone, Copy, PartialEq, Eq)]
pub enum Ends {
    Any,
    GoalAtStart,
    StartOccupied,
    GoalOccupied,
    /// No corridor leads from the start to the goal, but corridors by another place do.
    Apart,
    /// The same, and the goal is occupied from step 0 to one in the second half, mostly so that unloading can end.
    ApartAndLate,
    /// Corridors lead from the start to the goal, occupied as late, and to a third place and back, but not on to the goal.
    BesideStore,
    /// Occupancies of the goal part its steps into short safe intervals.
    GoalParted,
    /// No corridor leads from the start to the goal, and the goal's steps are parted.
    ApartAndParted,
    /// The goal is the start, and its steps are parted.
    StartParted,
    /// The start is occupied from an early step on.
    StartLeft,
}

impl Family {
    /// Random groups of the family that are in order and in range, without closures.
    pub fn groups(&self, random: &mut Random) -> Groups {
        let [places, steps] = [self.places, self.steps].map(|[least, most]| random.from_to(least, most));
        let start = random.from_to(0, places - 1);
        let goal = self.goal(places, start, random);
        let unloading = self.unloading.steps(steps, random);
        let head = vec![places, steps, start, goal, unloading];
        let waits = self.waiting.waits(places, start, random);
        let corridors = self.corridors(places, start, goal, random);
        let mut occupancies = self.occupancies(places, steps, random);
        occupancies.extend(self.ends.occupancies(&head, random));
        let occupancies = occupancies.into_iter().take(256).flatten().collect();
        Groups { head, waits, corridors, closures: vec![], occupancies }
    }

    /// The goal of a sheet with so many places.
    fn goal(&self, places: u32, start: u32, random: &mut Random) -> u32 {
        match self.ends {
            Ends::GoalAtStart | Ends::StartParted => start,
            _ if self.has_third() || random.percent(90) => (start + random.from_to(1, places.max(2) - 1)) % places,
            _ => random.from_to(0, places - 1),
        }
    }

    /// Whether the goal is another place than the start, and corridors lead to a third one.
    fn has_third(&self) -> bool {
        [Ends::Apart, Ends::ApartAndLate, Ends::ApartAndParted, Ends::BesideStore].contains(&self.ends)
    }

    /// The corridors that a third place asks for, and the one that it rules out.
    fn by_third(&self, start: u32, goal: u32, third: u32) -> (Vec<[u32; 2]>, [u32; 2]) {
        if self.ends == Ends::BesideStore {
            (vec![[start, third], [third, start], [start, goal]], [third, goal])
        } else {
            (vec![[start, third], [third, goal]], [start, goal])
        }
    }

    /// Random corridor lines in ascending order.
    fn corridors(&self, places: u32, start: u32, goal: u32, random: &mut Random) -> Vec<u32> {
        let [least, most] = self.corridors;
        let mut count = random.from_to(least, most).min(places * (places - 1)) as usize;
        let mut ends = BTreeSet::new();
        let mut ruled_out = None;
        if self.has_third() {
            count = count.min((places * (places - 1) - 1) as usize);
            let (given, other) = self.by_third(start, goal, other_than([start, goal], places, random));
            ends.extend(given);
            ruled_out = Some(other);
        }
        while ends.len() < count {
            let [from, to] = [0, 1].map(|_| random.from_to(0, places - 1));
            if from != to && Some([from, to]) != ruled_out {
                ends.insert([from, to]);
            }
        }
        let lines = ends.into_iter().map(|[from, to]| (from, to, self.crossing.cost(random)));
        lines.flat_map(|(from, to, [a, b, c])| [from, to, a, b, c]).collect()
    }

    /// Random occupancy lines, which begin within so many steps.
    fn occupancies(&self, places: u32, steps: u32, random: &mut Random) -> BTreeSet<[u32; 3]> {
        let Occupancies { count: [least, most], longest } = self.occupancies;
        let count = random.from_to(least, most);
        let mut occupancy = || {
            let place = random.from_to(0, places - 1);
            let first = random.from_to(0, steps);
            [place, first, (first + random.from_to(0, longest - 1)).min(255)]
        };
        (0..count).map(|_| occupancy()).collect()
    }
}

impl Ends {
    /// The occupancies that make the start or the goal of a sheet with these numbers special.
    fn occupancies(self, head: &[u32], random: &mut Random) -> Vec<[u32; 3]> {
        let [steps, start, goal, unloading] = [1, 2, 3, 4].map(|at| head[at]);
        match self {
            Ends::Any | Ends::GoalAtStart | Ends::Apart => vec![],
            Ends::StartOccupied => vec![occupancy_near([0, 1], start, steps, random)],
            Ends::GoalOccupied => vec![occupancy_near([0, steps], goal, steps, random)],
            Ends::ApartAndLate | Ends::BesideStore => {
                let least = steps / 2;
                vec![[goal, 0, random.from_to(least, least.max(steps.saturating_sub(1 + unloading)))]]
            }
            Ends::GoalParted | Ends::ApartAndParted | Ends::StartParted => parting(goal, steps, random),
            Ends::StartLeft => vec![[start, random.from_to(1, 4), 255]],
        }
    }
}

impl Waiting {
    /// Random wait lines of so many places.
    fn waits(self, places: u32, start: u32, random: &mut Random) -> Vec<u32> {
        let (costs, is_equal) = match self {
            Waiting::Any(costs) => (costs, random.percent(50)),
            Waiting::Equal(costs) => (costs, true),
            Waiting::ByPlace(costs) => (costs, false),
            Waiting::AtStart([one, other]) => {
                let cost = |place| if place == start { one } else { other };
                return (0..places).flat_map(|place| wait(place, cost(place))).collect();
            }
        };
        if is_equal {
            return equal_waits(places, costs.cost(random));
        }
        (0..places).flat_map(|place| wait(place, costs.cost(random))).collect()
    }
}

impl Unloading {
    /// A random time to unload for a sheet with so many steps.
    fn steps(self, steps: u32, random: &mut Random) -> u32 {
        match self {
            Unloading::Any => any_unloading(steps, random),
            Unloading::Steps(of) => random.pick(of),
        }
    }
}

impl Costs {
    /// A random cost.
    fn cost(self, random: &mut Random) -> [u32; 3] {
        match self {
            Costs::Figures(figures) => [0, 1, 2].map(|_| random.pick(figures)),
            Costs::Whole(costs) => random.pick(costs),
        }
    }
}

/// The wait line of a place.
fn wait(place: u32, [a, b, c]: [u32; 3]) -> [u32; 4] {
    [place, a, b, c]
}

/// A time to unload as `Unloading::Any` has it, for a sheet with so many steps.
fn any_unloading(steps: u32, random: &mut Random) -> u32 {
    let drawn = match random.below(20) {
        0..10 => 0,
        10..15 => 1,
        15..17 => 2,
        17 => random.from_to(1, steps.max(1)),
        18 => random.pick(&[3, 4, steps, steps]),
        _ => random.pick(&[steps + 1, 98, 99]),
    };
    drawn.min(99)
}

/// One or two short occupancies of a place, from an early step on.
fn parting(place: u32, steps: u32, random: &mut Random) -> Vec<[u32; 3]> {
    let first = random.from_to(1, 3);
    let last = first + random.from_to(0, 1);
    let again = last + random.from_to(2, 4);
    let both = again <= steps && random.percent(50);
    let one = [place, first, last];
    if both { vec![one, [place, again, again + random.from_to(0, 1)]] } else { vec![one] }
}

/// A place other than two, of at least three.
fn other_than(two: [u32; 2], places: u32, random: &mut Random) -> u32 {
    loop {
        let place = random.from_to(0, places - 1);
        if !two.contains(&place) {
            return place;
        }
    }
}

/// An occupancy of a place that begins at one of two steps, mostly a short one.
fn occupancy_near(firsts: [u32; 2], place: u32, steps: u32, random: &mut Random) -> [u32; 3] {
    let first = random.pick(&firsts);
    [place, first, random.pick(&[first, first, first + 1, first + 2, first + steps]).min(255)]
}
