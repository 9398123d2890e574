//! The planner of journeys for supply carts, from Rust: a safe wrapper of the calls in host/planner.h.
//!
//! A corridor sheet is a text in the format of document 01, "The corridor sheet and the journeys it offers", with the
//! time to unload ([`Sheet::unloading`]), the waiting costs by place ([`Sheet::waits`]) and the closures
//! ([`Sheet::closures`]) of document 02. [`front`] hands back every cost of a lawful journey that nothing beats,
//! [`journey`] the journey of one such cost, [`read()`] the sheet's values and [`write()`](fn@write) the text of a
//! sheet. Each gives a result or one numbered [`Refusal`]. [`calls`] has the calls themselves, on buffers that the
//! caller lends.
//!
//! The functions keep nothing between calls and may run on several threads at once. Each uses up to 200,000 bytes of
//! stack in the planner (measured; docs/DECISIONS.md, "Stack"); the arrivals table and the front list are on the heap.
//! examples/plan.rs shows their use.

#![deny(unsafe_code)]
#![warn(missing_docs)]

#[allow(unsafe_code)]
pub mod calls;
mod offers;
mod refusal;
mod sheet;
#[cfg(test)]
mod tests;

pub use offers::{Arrival, Front, Journey, Offer, Room, front, journey};
pub use refusal::Refusal;
pub use sheet::{Closure, Corridor, Occupancy, Sheet, Wait, read, write};

use std::fmt;

/// A cost: charge, noise, doors.
pub type Cost = [u32; 3];

/// A place of the sheet, numbered from 0.
#[derive(Clone, Copy, Debug, PartialEq, Eq, PartialOrd, Ord, Hash)]
pub struct Place(pub u32);

/// A step, from 0 to the sheet's last; that of an occupancy's end or of a closure may lie after it.
#[derive(Clone, Copy, Debug, PartialEq, Eq, PartialOrd, Ord, Hash)]
pub struct Step(pub u32);

impl fmt::Display for Place {
    fn fmt(&self, f: &mut fmt::Formatter<'_>) -> fmt::Result {
        self.0.fmt(f)
    }
}

impl fmt::Display for Step {
    fn fmt(&self, f: &mut fmt::Formatter<'_>) -> fmt::Result {
        self.0.fmt(f)
    }
}
