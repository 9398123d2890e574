//! One call of the front or of a journey, given to the planner and to the reference: the planner's answer, or a
//! report of the difference. Every cell of every lent array counts, and those around them.

use crate::answers::{FrontAnswer, JourneyAnswer};
use crate::compare::report;
use crate::lent::Lent;
use crate::planner;
use crate::random::Random;
use crate::step_by_step::{Offer, Refusal, front_of, journey_of, offered};
use std::fmt::Debug;

/// A sheet's text, with what the reference says it offers.
pub struct Tried {
    text: Vec<u8>,
    offered: Result<Offer, Refusal>,
}

/// The arrivals table, and the front list or the path buffer, as they are lent.
#[derive(Clone, PartialEq, Eq)]
struct Arrays {
    arrivals: Lent<u32>,
    other: Lent<u32>,
}

impl Arrays {
    /// Arrays of two lengths with a random pattern in them.
    fn lent(lens: [usize; 2], random: &mut Random) -> Arrays {
        let [arrivals, other] = lens.map(|len| Lent::buffer(len, random));
        Arrays { arrivals, other }
    }

    /// An answer and the two arrays, which began as `before`.
    fn shown(&self, answer: &impl Debug, before: &Arrays) -> String {
        let [arrivals, other] =
            [(&self.arrivals, &before.arrivals), (&self.other, &before.other)].map(|(now, then)| {
                let around = if now.margins() == then.margins() { "" } else { ", and cells around it changed" };
                format!("{:?}{around}", now.cells())
            });
        format!("{answer:?}\n    arrivals table: {arrivals}\n    list or path: {other}")
    }
}

impl Tried {
    /// A text whose lawful ways can be listed, or one that is refused.
    pub fn new(text: Vec<u8>) -> Tried {
        let offered = offered(&text);
        Tried { text, offered }
    }

    /// The text.
    pub fn text(&self) -> &[u8] {
        &self.text
    }

    /// What the text offers, unless it is refused.
    pub fn offer(&self) -> Option<&Offer> {
        self.offered.as_ref().ok()
    }

    /// The text amid bytes that can pass for more of it.
    fn lent_text(&self, random: &mut Random) -> Lent<u8> {
        Lent::holding(&self.text, random, b"0123456789,\nSWCXO")
    }

    /// Both calls of the front with an arrivals table and a list of these lengths; hands back the list's cells too.
    pub fn compare_front(&self, lens: [usize; 2], random: &mut Random) -> Result<(FrontAnswer, Filled), String> {
        let text = self.lent_text(random);
        let before = Arrays::lent(lens, random);
        let [mut planned, mut expected] = [before.clone(), before.clone()];
        let answer = planner::front(text.cells(), planned.arrivals.cells_mut(), planned.other.cells_mut());
        let reference = front_of(&self.offered, expected.arrivals.cells_mut(), expected.other.cells_mut());
        if answer == reference && planned == expected {
            return Ok((answer, Filled::of(&planned)));
        }
        let call = format!("front, lent {lens:?} cells");
        Err(self.report(&call, &planned.shown(&answer, &before), &expected.shown(&reference, &before)))
    }

    /// Both calls of a journey with an arrivals table and a path buffer of these lengths.
    pub fn compare_journey(
        &self,
        number: u32,
        lens: [usize; 2],
        random: &mut Random,
    ) -> Result<(JourneyAnswer, Filled), String> {
        let text = self.lent_text(random);
        let before = Arrays::lent(lens, random);
        let [mut planned, mut expected] = [before.clone(), before.clone()];
        let answer = planner::journey(text.cells(), number, planned.arrivals.cells_mut(), planned.other.cells_mut());
        let reference = journey_of(&self.offered, number, expected.arrivals.cells_mut(), expected.other.cells_mut());
        if answer == reference && planned == expected {
            return Ok((answer, Filled::of(&planned)));
        }
        let call = format!("journey {number}, lent {lens:?} cells");
        Err(self.report(&call, &planned.shown(&answer, &before), &expected.shown(&reference, &before)))
    }

    /// A difference in a call on the text.
    fn report(&self, call: &str, planner: &str, expected: &str) -> String {
        let input = format!("{call}, text of {} bytes \"{}\"", self.text.len(), self.text.escape_ascii());
        report("the calls differ", &input, planner, expected)
    }
}

/// What a call left in the arrivals table, and in the front list or the path buffer.
pub struct Filled {
    pub arrivals: Vec<u32>,
    pub other: Vec<u32>,
}

impl Filled {
    /// The cells of the lent arrays.
    fn of(arrays: &Arrays) -> Filled {
        Filled { arrivals: arrays.arrivals.cells().to_vec(), other: arrays.other.cells().to_vec() }
    }
}
