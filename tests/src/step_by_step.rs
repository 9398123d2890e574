// The reference for the front and its journeys: every lawful way, step by step, written from documents 01 and 02 alone.

use crate::answers::{FrontAnswer, JourneyAnswer, SheetRead};
use crate::sheet::read_sheet;
use std::collections::BTreeSet;
use std::iter::{once, repeat};
use std::ops::RangeInclusive;

/// A cost: three figures, added and compared place by place.
pub type Cost = [u32; 3];

/// The sum of two costs.
fn sum(one: Cost, other: Cost) -> Cost {
    [0, 1, 2].map(|at| one[at] + other[at])
}

/// Whether no figure of a cost is greater than the other's.
pub fn is_within(one: Cost, other: Cost) -> bool {
    one.iter().zip(other).all(|(&figure, most)| figure <= most)
}

/// Whether a cost dominates another: no figure is greater and one is smaller.
pub fn dominates(one: Cost, other: Cost) -> bool {
    is_within(one, other) && one != other
}

/// A sheet's lines, and the waiting cost and the safe intervals of each place.
struct Sheet {
    steps: u32,
    start: u32,
    goal: u32,
    waiting: Vec<Cost>,
    unloading: u32,
    corridors: Vec<[u32; 5]>,
    closures: Vec<[u32; 3]>,
    occupancies: Vec<[u32; 3]>,
    intervals: Vec<Vec<RangeInclusive<u32>>>,
}

impl Sheet {
    /// The sheet that was read.
    fn of(read: &SheetRead) -> Sheet {
        let [places, steps, start, goal, unloading] = read.head;
        let waiting = read.wait_numbers().as_chunks().0.iter().map(|&[_, a, b, c]| [a, b, c]).collect();
        let corridors = read.corridor_numbers().as_chunks().0.to_vec();
        let closures = read.closure_numbers().as_chunks().0.to_vec();
        let occupancies = read.occupancy_numbers().as_chunks().0.to_vec();
        let intervals = vec![];
        let mut sheet = Sheet { steps, start, goal, waiting, unloading, corridors, closures, occupancies, intervals };
        sheet.intervals = (0..places).map(|place| sheet.safe_intervals(place)).collect();
        sheet
    }

    /// The cost of waiting one step at a place.
    fn waiting_at(&self, place: u32) -> Cost {
        self.waiting[place as usize]
    }

    /// Whether a place is unoccupied at a step.
    fn is_free(&self, place: u32, step: u32) -> bool {
        !self.occupancies.iter().any(|&[occupied, first, last]| occupied == place && (first..=last).contains(&step))
    }

    /// The longest runs of steps within 0 to T at which a place is unoccupied.
    fn safe_intervals(&self, place: u32) -> Vec<RangeInclusive<u32>> {
        let mut runs: Vec<RangeInclusive<u32>> = Vec::new();
        for step in (0..=self.steps).filter(|&step| self.is_free(place, step)) {
            match runs.last_mut() {
                Some(run) if *run.end() + 1 == step => *run = *run.start()..=step,
                _ => runs.push(step..=step),
            }
        }
        runs
    }

    /// Whether no closure forbids to depart from a place to another at a step.
    fn is_open(&self, from: u32, to: u32, step: u32) -> bool {
        !self.closures.contains(&[from, to, step])
    }

    /// Where a cart at a place at a step can be one step later, by waiting or by a corridor that is not closed, and what
    /// that costs.
    fn moves(&self, place: u32, step: u32) -> Vec<(u32, Cost)> {
        let crossings = self.corridors.iter().filter(|&&[from, ..]| from == place);
        let crossings = crossings.filter(|&&[from, to, ..]| self.is_open(from, to, step));
        once((place, self.waiting_at(place))).chain(crossings.map(|&[_, to, a, b, c]| (to, [a, b, c]))).collect()
    }

    /// The lawful ways that are a way with one step more.
    fn longer(&self, way: &Way) -> Vec<Way> {
        let mut moves = self.moves(way.place(), way.step());
        moves.retain(|&(to, _)| self.is_free(to, way.step() + 1));
        moves.into_iter().map(|(to, cost)| way.then(to, cost)).collect()
    }

    /// Every lawful way from the start within the horizon, wherever it ends.
    fn lawful_ways(&self) -> Vec<Way> {
        let at_start = Way { places: vec![self.start], cost: [0; 3] };
        let mut last = if self.is_free(self.start, 0) { vec![at_start] } else { vec![] };
        let mut ways = last.clone();
        for _ in 1..=self.steps {
            last = last.iter().flat_map(|way| self.longer(way)).collect();
            ways.extend_from_slice(&last);
        }
        ways
    }

    /// Whether two steps lie in one safe interval of a place.
    fn in_one_interval(&self, place: u32, one: u32, other: u32) -> bool {
        self.intervals[place as usize].iter().any(|run| run.contains(&one) && run.contains(&other))
    }

    /// The cost of an arrival after waiting at its place until a step.
    fn waited(&self, one: &Arrival, until: u32) -> Cost {
        sum(one.cost, self.waiting_at(one.place).map(|figure| figure * (until - one.step)))
    }

    /// Whether an arrival leads another one: by waiting it would be there at no greater cost.
    fn leads(&self, one: &Arrival, other: &Arrival) -> bool {
        one != other
            && one.place == other.place
            && self.in_one_interval(one.place, one.step, other.step)
            && one.step <= other.step
            && is_within(self.waited(one, other.step), other.cost)
    }

    /// The arrivals that no other leads.
    fn leading(&self, arrivals: &BTreeSet<Arrival>) -> Vec<Arrival> {
        arrivals.iter().filter(|one| !arrivals.iter().any(|other| self.leads(other, one))).copied().collect()
    }

    /// Whether an arrival at the goal at a step counts: unloading ends within T, and the goal is free until it does.
    fn counts(&self, step: u32) -> bool {
        let unloaded = step + self.unloading;
        unloaded <= self.steps && (step..=unloaded).all(|step| self.is_free(self.goal, step))
    }

    /// The lawful journeys: the ways that end with an arrival at the goal that counts.
    fn journeys(&self, ways: &[Way]) -> Vec<Way> {
        ways.iter().filter(|way| way.place() == self.goal && self.counts(way.step())).cloned().collect()
    }
}

/// The front of some journeys, ascending, each cost with the journey that the tie rule selects.
fn front_among(journeys: &[Way]) -> Vec<Way> {
    let mut journeys: Vec<&Way> = journeys.iter().collect();
    journeys.sort_by_cached_key(|way| (way.cost, way.rank()));
    journeys.dedup_by_key(|way| way.cost);
    let on_front = |way: &Way| !journeys.iter().any(|other| dominates(other.cost, way.cost));
    journeys.iter().filter(|way| on_front(way)).map(|&way| way.clone()).collect()
}

/// A way from the start: a place for each step from 0 on, and its cost.
#[derive(Clone)]
struct Way {
    places: Vec<u32>,
    cost: Cost,
}

impl Way {
    /// The last place.
    fn place(&self) -> u32 {
        self.places[self.places.len() - 1]
    }

    /// The last step.
    fn step(&self) -> u32 {
        self.places.len() as u32 - 1
    }

    /// The way that goes on to a place.
    fn then(&self, to: u32, cost: Cost) -> Way {
        let mut places = self.places.clone();
        places.push(to);
        Way { places, cost: sum(self.cost, cost) }
    }

    /// What the tie rule compares: the arrival step, then the places from step 0 forwards.
    fn rank(&self) -> (u32, Vec<u32>) {
        (self.step(), self.places.clone())
    }

    /// Where the way stands, when, and at which cost.
    fn arrival(&self) -> Arrival {
        Arrival { step: self.step(), place: self.place(), cost: self.cost }
    }
}

/// An arrival; rows ascend by its fields in this order.
#[derive(Clone, Copy, PartialEq, Eq, PartialOrd, Ord)]
struct Arrival {
    step: u32,
    place: u32,
    cost: Cost,
}

/// What a sheet offers: the leading arrivals in the order of rows, the front with its journeys, and all lawful journeys.
pub struct Offer {
    leading: Vec<Arrival>,
    front: Vec<Way>,
    journeys: Vec<Way>,
}

/// The number and the line of a refusal by the reader.
pub struct Refusal {
    number: u32,
    line: u32,
}

/// What a text offers, or its refusal.
pub fn offered(text: &[u8]) -> Result<Offer, Refusal> {
    let read = read_sheet(text);
    if read.refusal > 0 {
        return Err(Refusal { number: read.refusal, line: read.line });
    }
    let sheet = Sheet::of(&read);
    let ways = sheet.lawful_ways();
    let arrivals: BTreeSet<Arrival> = ways.iter().map(Way::arrival).collect();
    let journeys = sheet.journeys(&ways);
    Ok(Offer { leading: sheet.leading(&arrivals), front: front_among(&journeys), journeys })
}

/// What a call of the front hands back, with what it leaves in the lent arrays.
pub fn front(text: &[u8], arrivals: &mut [u32], list: &mut [u32]) -> FrontAnswer {
    front_of(&offered(text), arrivals, list)
}

/// What a call of a journey hands back, with what it leaves in the lent arrays.
pub fn journey(text: &[u8], number: u32, arrivals: &mut [u32], path: &mut [u32]) -> JourneyAnswer {
    journey_of(&offered(text), number, arrivals, path)
}

/// The call of the front on a text that offers this.
pub fn front_of(offered: &Result<Offer, Refusal>, arrivals: &mut [u32], list: &mut [u32]) -> FrontAnswer {
    match offered {
        Err(refusal) => FrontAnswer::refused(refusal.number, refusal.line),
        Ok(offer) => offer.front(arrivals, list),
    }
}

/// The call of a journey on a text that offers this.
pub fn journey_of(
    offered: &Result<Offer, Refusal>,
    number: u32,
    arrivals: &mut [u32],
    path: &mut [u32],
) -> JourneyAnswer {
    match offered {
        Err(refusal) => JourneyAnswer::refused(refusal.number, refusal.line),
        Ok(offer) => offer.journey(number, arrivals, path),
    }
}

impl Offer {
    /// The number of leading arrivals.
    pub fn arrivals(&self) -> usize {
        self.leading.len()
    }

    /// The arrival step of each journey on the front.
    pub fn steps(&self) -> Vec<u32> {
        self.front.iter().map(Way::step).collect()
    }

    /// The front: each cost, with the places of its journey.
    pub fn shown(&self) -> Vec<(Cost, Vec<u32>)> {
        self.front.iter().map(|way| (way.cost, way.places.clone())).collect()
    }

    /// For each cost of the front the places of every journey that has it.
    pub fn journeys(&self) -> Vec<Vec<&[u32]>> {
        let of_cost =
            |one: &Way| self.journeys.iter().filter(|way| way.cost == one.cost).map(|way| &way.places[..]).collect();
        self.front.iter().map(of_cost).collect()
    }

    /// Whether there are more leading arrivals than an arrivals table has room for.
    fn lacks_room(&self, arrivals: &[u32]) -> bool {
        self.leading.len() > arrivals.len() / 5
    }

    /// The number of the refusal that a call of the front gets, 0 if it is served.
    fn front_refusal(&self, arrivals: &[u32], list: &[u32]) -> u32 {
        match self.front.len() {
            _ if self.lacks_room(arrivals) => 8,
            costs if costs > list.len() / 4 => 9,
            _ => 0,
        }
    }

    /// The number of the refusal that a call of a journey gets, 0 if it is served.
    fn journey_refusal(&self, number: u32, arrivals: &[u32], path: &[u32]) -> u32 {
        match self.front.get(number as usize) {
            _ if self.lacks_room(arrivals) => 8,
            None => 10,
            Some(way) if path.len() < way.places.len() => 11,
            Some(_) => 0,
        }
    }

    /// What a call of the front hands back for a sheet that is read.
    fn front(&self, arrivals: &mut [u32], list: &mut [u32]) -> FrontAnswer {
        let refusal = self.front_refusal(arrivals, list);
        if refusal > 0 {
            clear(arrivals);
            return FrontAnswer::refused(refusal, 0);
        }
        fill(arrivals, self.rows());
        fill(list, self.front.iter().flat_map(|way| [way.cost[0], way.cost[1], way.cost[2], way.step()]));
        FrontAnswer { refusal: 0, line: 0, costs: self.front.len() as u64, arrivals: self.leading.len() as u64 }
    }

    /// What a call of a journey hands back for a sheet that is read.
    fn journey(&self, number: u32, arrivals: &mut [u32], path: &mut [u32]) -> JourneyAnswer {
        let refusal = self.journey_refusal(number, arrivals, path);
        if refusal > 0 {
            clear(arrivals);
            return JourneyAnswer::refused(refusal, 0);
        }
        let way = &self.front[number as usize];
        fill(arrivals, self.rows());
        fill(path, way.places.iter().copied());
        JourneyAnswer { refusal: 0, line: 0, cost: way.cost, arrival: way.step() }
    }

    /// The numbers of the arrivals table's rows: place, step and three figures each.
    pub fn rows(&self) -> impl Iterator<Item = u32> {
        self.leading.iter().flat_map(|one| [one.place, one.step, one.cost[0], one.cost[1], one.cost[2]])
    }
}

/// Fills an array with some numbers, then with zeros.
fn fill(array: &mut [u32], numbers: impl Iterator<Item = u32>) {
    array.iter_mut().zip(numbers.chain(repeat(0))).for_each(|(cell, number)| *cell = number);
}

/// Sets an array to zeros.
fn clear(array: &mut [u32]) {
    array.fill(0);
}
