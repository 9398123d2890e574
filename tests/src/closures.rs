//! How the closures change the front of a sheet, to be counted.

use crate::answers::SheetRead;
use crate::closing::crossings;
use crate::groups::Groups;
use crate::sheet::read_sheet;
use crate::step_by_step::{Offer, offered};

/// What closures do to a front, and where they lie.
pub const CHANGES: [&str; 14] = [
    "no cost is left",
    "a cost goes and others are left",
    "a cost comes up",
    "a cost gets a later arrival",
    "a cost gets another journey with the same arrival",
    "a journey waits until its corridor opens",
    "a journey crosses just before its corridor is closed",
    "a journey goes the other way than the closure",
    "a departure at step 0 is closed",
    "a departure at the last step but one is closed",
    "a closure of the last step",
    "a closure past the last step",
    "both ways between two places are closed at one step",
    "every corridor out of the start is closed at step 0, and there is a journey",
];

/// A cost of a front, with the places of its journey.
type Journey = ([u32; 3], Vec<u32>);

/// The front of a sheet with closures, and the one that the sheet has without.
pub struct Fronts {
    read: SheetRead,
    with: Vec<Journey>,
    without: Vec<Journey>,
}

impl Fronts {
    /// The fronts of a text that offers this, if its sheet has closures.
    pub fn of(text: &[u8], offer: &Offer) -> Option<Fronts> {
        let read = read_sheet(text);
        if read.lines[3] == 0 {
            return None;
        }
        let open = Groups { closures: vec![], ..Groups::of(&read) };
        let without = offered(&open.text()).ok()?.shown();
        Some(Fronts { read, with: offer.shown(), without })
    }

    /// Whether they differ, in a cost or in a journey.
    pub fn differ(&self) -> bool {
        self.with != self.without
    }

    /// For each change whether it comes up here.
    pub fn changes(&self) -> [bool; CHANGES.len()] {
        let [_, last, ..] = self.read.head;
        let has = |front: &[Journey], cost| front.iter().any(|one| one.0 == cost);
        let goes = self.without.iter().any(|one| !has(&self.with, one.0));
        let comes = self.with.iter().any(|one| !has(&self.without, one.0));
        let closed_at = |step| self.departures(&self.without).any(|one| one[2] == step && self.is_closed(one));
        let closures = || self.closures().iter().copied();
        [
            goes && self.with.is_empty(),
            goes && !self.with.is_empty(),
            comes,
            self.of_one_cost(|with, without| without.len() < with.len()),
            self.of_one_cost(|with, without| without.len() == with.len() && without != with),
            self.with.iter().any(|one| self.waits_until_open(&one.1)),
            self.departures(&self.with).any(|[from, to, step]| self.is_closed([from, to, step + 1])),
            self.departures(&self.with).any(|[from, to, step]| self.is_closed([to, from, step])),
            closed_at(0),
            last > 1 && closed_at(last - 1),
            closures().any(|[.., step]| step == last),
            closures().any(|[.., step]| step > last),
            closures().any(|[from, to, step]| self.is_closed([to, from, step])),
            self.with.iter().any(|one| one.1.len() > 1) && self.is_start_closed(),
        ]
    }

    /// The closures.
    fn closures(&self) -> &[[u32; 3]] {
        self.read.closure_numbers().as_chunks().0
    }

    /// Whether a corridor is closed at a step.
    fn is_closed(&self, closure: [u32; 3]) -> bool {
        self.closures().contains(&closure)
    }

    /// The crossings of the journeys of a front, with the steps of departure.
    fn departures(&self, front: &[Journey]) -> impl Iterator<Item = [u32; 3]> {
        front.iter().flat_map(|one| crossings(&one.1)).collect::<Vec<_>>().into_iter()
    }

    /// Whether this holds of the places of two journeys with one cost, one of each front.
    fn of_one_cost(&self, holds: impl Fn(&[u32], &[u32]) -> bool) -> bool {
        let of_cost = |one: &Journey| self.without.iter().any(|other| other.0 == one.0 && holds(&one.1, &other.1));
        self.with.iter().any(of_cost)
    }

    /// Whether a journey crosses right after a step at which it waits and its corridor is closed.
    fn waits_until_open(&self, places: &[u32]) -> bool {
        crossings(places).into_iter().any(|[from, to, step]| {
            step > 0 && places[step as usize - 1] == from && self.is_closed([from, to, step - 1])
        })
    }

    /// Whether corridors lead out of the start and all of them are closed at step 0.
    fn is_start_closed(&self) -> bool {
        let [_, _, start, ..] = self.read.head;
        let (corridors, _) = self.read.corridor_numbers().as_chunks::<5>();
        let mut out = corridors.iter().filter(|line| line[0] == start).peekable();
        out.peek().is_some() && out.all(|&[from, to, ..]| self.is_closed([from, to, 0]))
    }
}
