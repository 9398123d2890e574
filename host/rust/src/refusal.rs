//! The numbered refusals.

use std::error::Error;
use std::fmt;

/// A refusal of the planner with the line at fault, counted from 1, or 0 where no line is at fault. It displays in
/// words.
#[derive(Clone, Copy, Debug, PartialEq, Eq, Hash)]
pub struct Refusal {
    /// 1 to 7, 15 and 16 are the sheet's refusals, 8 to 12 the caller's; 14 is a month's, and no call hands it back.
    pub number: u32,
    /// The line at fault.
    pub line: u32,
}

impl Refusal {
    /// The refusal that an answer's first two numbers give, if they give one.
    pub(crate) fn check(number: u32, line: u32) -> Result<(), Refusal> {
        if number == 0 { Ok(()) } else { Err(Refusal { number, line }) }
    }

    /// What the number means, in the words of host/refusals.txt.
    pub fn meaning(&self) -> &'static str {
        match self.number {
            1 => "the sheet has more than 16,384 bytes",
            2 => "the line is malformed: its letter, its count of fields, a number or its line feed",
            3 => "a line is out of turn or missing: one S, one W for each place from 0 up, then C, X, O",
            4 => "a number is outside its range",
            5 => "the line is not above the line before",
            6 => "a corridor or a closure leads from a place to itself, or an occupancy ends before it begins",
            7 => "the sheet has more than 256 lines of this kind",
            8 => "there are more leading arrivals than room",
            9 => "there are more front costs than room",
            10 => "no journey on the front has this number",
            11 => "the path buffer is shorter than the journey",
            12 => "the buffer is shorter than the sheet",
            14 => "the month has no line, or more than 4,096",
            15 => "the closure names no corridor of the sheet",
            16 => "the occupancy begins after the last step",
            _ => "the planner gives no such number",
        }
    }
}

impl fmt::Display for Refusal {
    fn fmt(&self, f: &mut fmt::Formatter<'_>) -> fmt::Result {
        match self.line {
            0 => write!(f, "refusal {}: {}", self.number, self.meaning()),
            line => write!(f, "refusal {} at line {line}: {}", self.number, self.meaning()),
        }
    }
}

impl Error for Refusal {}
