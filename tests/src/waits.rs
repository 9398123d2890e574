//! How the waiting costs of the places change the front of a sheet, to be counted.

use crate::answers::SheetRead;
use crate::groups::{Groups, equal_waits};
use crate::sheet::read_sheet;
use crate::step_by_step::{Offer, dominates, is_within, offered};

/// What waiting costs by place do to a front, beside the start's waiting cost at each place, and where its journeys wait.
pub const CHANGES: [&str; 11] = [
    "a cost goes",
    "a cost comes up",
    "a cost gets another journey",
    "there are more leading arrivals",
    "there are fewer leading arrivals",
    "a journey by the same corridors waits at other places",
    "a journey waits at a cheaper place than one that it passes",
    "a journey waits at a dearer place than one that it passes",
    "a journey waits at a place that is dearer in one figure and cheaper in another than one that it passes",
    "a journey goes to a cheaper place, waits there and comes back",
    "a later departure into a dearer place leads",
];

/// A cost of a front, with the places of its journey.
type Journey = ([u32; 3], Vec<u32>);

/// A row of the arrivals table: place, step and three figures.
type Row = [u32; 5];

/// The front and the arrivals of a sheet with several waiting costs, and those that the sheet has with one.
pub struct Fronts {
    read: SheetRead,
    by_place: Vec<Journey>,
    equal: Vec<Journey>,
    rows: Vec<Row>,
    equal_arrivals: usize,
}

impl Fronts {
    /// The fronts of a text that offers this, if its sheet has several waiting costs.
    pub fn of(text: &[u8], offer: &Offer) -> Option<Fronts> {
        let read = read_sheet(text);
        let [places, _, start, ..] = read.head;
        let waits = equal_waits(places, wait_at(&read, start));
        if read.wait_numbers() == waits {
            return None;
        }
        let equal = offered(&Groups { waits, ..Groups::of(&read) }.text()).ok()?;
        let rows = offer.rows().collect::<Vec<u32>>().as_chunks().0.to_vec();
        Some(Fronts { read, by_place: offer.shown(), equal: equal.shown(), rows, equal_arrivals: equal.arrivals() })
    }

    /// Whether they differ, in a cost or in a journey.
    pub fn differ(&self) -> bool {
        self.by_place != self.equal
    }

    /// For each change whether it comes up here.
    pub fn changes(&self) -> [bool; CHANGES.len()] {
        let Fronts { by_place, equal, .. } = self;
        let has = |front: &[Journey], cost| front.iter().any(|one| one.0 == cost);
        let waits_beside = |holds: fn([u32; 3], [u32; 3]) -> bool| by_place.iter().any(|one| self.waits(&one.1, holds));
        let neither = |one, other| !is_within(one, other) && !is_within(other, one);
        [
            equal.iter().any(|one| !has(by_place, one.0)),
            by_place.iter().any(|one| !has(equal, one.0)),
            self.of_two(|one, other| one.0 == other.0 && one.1 != other.1),
            self.rows.len() > self.equal_arrivals,
            self.rows.len() < self.equal_arrivals,
            self.of_two(|one, other| one.1 != other.1 && stays(&one.1).map(first).eq(stays(&other.1).map(first))),
            waits_beside(dominates),
            waits_beside(|one, other| dominates(other, one)),
            waits_beside(neither),
            by_place.iter().any(|one| self.comes_back(&one.1)),
            self.departs_later(),
        ]
    }

    /// Whether this holds of two journeys, one of each front.
    fn of_two(&self, holds: impl Fn(&Journey, &Journey) -> bool) -> bool {
        self.by_place.iter().any(|one| self.equal.iter().any(|other| holds(one, other)))
    }

    /// Whether a journey waits at a place of whose waiting cost, beside that of another of its places, this holds.
    fn waits(&self, places: &[u32], holds: fn([u32; 3], [u32; 3]) -> bool) -> bool {
        let mut long = stays(places).filter(|stay| stay.len() > 1).map(first);
        let cost = |place| wait_at(&self.read, place);
        long.any(|place| places.iter().any(|&other| holds(cost(place), cost(other))))
    }

    /// Whether a journey leaves a place for a cheaper one, waits there and comes back.
    fn comes_back(&self, places: &[u32]) -> bool {
        let stays: Vec<&[u32]> = stays(places).collect();
        stays.windows(3).any(|three| {
            let [from, to, back] = [three[0][0], three[1][0], three[2][0]];
            let is_cheaper = dominates(wait_at(&self.read, to), wait_at(&self.read, from));
            from == back && three[1].len() > 1 && is_cheaper
        })
    }

    /// Whether a leading arrival that departs later into a place, dearer in a figure than its own, leads there too.
    fn departs_later(&self) -> bool {
        let (corridors, _) = self.read.corridor_numbers().as_chunks::<5>();
        let later = |row, corridor| (2..=self.read.head[1]).any(|after| self.leads_after(row, corridor, after));
        corridors.iter().any(|corridor| self.rows.iter().any(|row| later(row, corridor)))
    }

    /// Whether an arrival is followed by one that leads at the end of a corridor so many steps later, by waiting and then
    /// crossing, though it could have crossed at once and waited there, which is dearer in a figure.
    fn leads_after(&self, row: &Row, corridor: &[u32; 5], after: u32) -> bool {
        let ([place, step, figures @ ..], [from, to, crossing @ ..]) = (*row, *corridor);
        let [waiting, waiting_there] = [from, to].map(|place| wait_at(&self.read, place));
        let cost = |at: usize| figures[at] + crossing[at] + (after - 1) * waiting[at];
        let closures = self.read.closure_numbers().as_chunks::<3>().0;
        place == from
            && !is_within(waiting_there, waiting)
            && self.rows.contains(&[to, step + after, cost(0), cost(1), cost(2)])
            && ![step, step + after - 1].iter().any(|&step| closures.contains(&[from, to, step]))
            && (step..step + after).all(|step| self.is_free(from, step) && self.is_free(to, step + 1))
    }

    /// Whether a place is unoccupied at a step.
    fn is_free(&self, place: u32, step: u32) -> bool {
        let mut lines = self.read.occupancy_numbers().as_chunks().0.iter();
        !lines.any(|&[occupied, first, last]| occupied == place && (first..=last).contains(&step))
    }
}

/// The waiting cost of a place.
fn wait_at(read: &SheetRead, place: u32) -> [u32; 3] {
    let [_, cost @ ..] = read.wait_numbers().as_chunks::<4>().0[place as usize];
    cost
}

/// The stays of a journey, each at one place.
fn stays(places: &[u32]) -> impl Iterator<Item = &[u32]> {
    places.chunk_by(|one, next| one == next)
}

/// The place of a stay.
fn first(stay: &[u32]) -> u32 {
    stay[0]
}
