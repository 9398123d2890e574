//! How the time to unload changes the front of a sheet, to be counted.

use crate::answers::SheetRead;
use crate::groups::Groups;
use crate::sheet::read_sheet;
use crate::step_by_step::{Offer, offered};

/// What a time to unload does to a front, and where the arrivals that count, or would without it, lie.
pub const CHANGES: [&str; 9] = [
    "no cost is left",
    "a cost goes and others are left",
    "a cost comes up",
    "a cost gets a later arrival",
    "a journey passes the goal before it arrives",
    "unloading ends at the last step",
    "unloading ends just before the goal is occupied",
    "unloading would end just after the last step",
    "unloading would end just as the goal is occupied",
];

/// A cost of a front, with the places of its journey.
type Journey = ([u32; 3], Vec<u32>);

/// The front of a sheet with a time to unload, and the one that the sheet has without.
pub struct Fronts {
    read: SheetRead,
    with: Vec<Journey>,
    without: Vec<Journey>,
}

impl Fronts {
    /// The fronts of a text that offers this, if its sheet has a time to unload.
    pub fn of(text: &[u8], offer: &Offer) -> Option<Fronts> {
        let read = read_sheet(text);
        let [numbers @ .., unloading] = read.head;
        if unloading == 0 {
            return None;
        }
        let head = [&numbers[..], &[0]].concat();
        let without = offered(&Groups { head, ..Groups::of(&read) }.text()).ok()?.shown();
        Some(Fronts { read, with: offer.shown(), without })
    }

    /// Whether they differ, in a cost or in a journey.
    pub fn differ(&self) -> bool {
        self.with != self.without
    }

    /// For each change whether it comes up here.
    pub fn changes(&self) -> [bool; CHANGES.len()] {
        let [_, last, _, goal, unloading] = self.read.head;
        let has = |front: &[Journey], cost| front.iter().any(|one| one.0 == cost);
        let goes = self.without.iter().any(|one| !has(&self.with, one.0));
        let comes = self.with.iter().any(|one| !has(&self.without, one.0));
        let later = |one: &Journey| self.without.iter().any(|other| other.0 == one.0 && other.1.len() < one.1.len());
        let passes = |one: &Journey| one.1[..one.1.len() - 1].contains(&goal);
        let end = |one: &Journey| one.1.len() as u32 - 1 + unloading;
        [
            goes && self.with.is_empty(),
            goes && !self.with.is_empty(),
            comes,
            self.with.iter().any(later),
            self.with.iter().any(passes),
            self.with.iter().any(|one| end(one) == last),
            self.with.iter().any(|one| end(one) < last && !self.is_free(end(one) + 1)),
            self.without.iter().any(|one| end(one) == last + 1 && self.is_free_before(end(one))),
            self.without.iter().any(|one| end(one) <= last && !self.is_free(end(one)) && self.is_free_before(end(one))),
        ]
    }

    /// Whether the goal is unoccupied at a step.
    fn is_free(&self, step: u32) -> bool {
        let goal = self.read.head[3];
        let mut lines = self.read.occupancy_numbers().as_chunks().0.iter();
        !lines.any(|&[place, first, last]| place == goal && (first..=last).contains(&step))
    }

    /// Whether the goal is unoccupied at each step of unloading before the last, which is given.
    fn is_free_before(&self, end: u32) -> bool {
        let unloading = self.read.head[4];
        (end - unloading..end).all(|step| self.is_free(step))
    }
}
