//! What a sheet offers: the front, and the journey of each cost on it.

use crate::sheet::rows;
use crate::{Cost, Place, Refusal, Step, calls};

/// A journey has a place for each step, and no step is past 255.
const MOST_PATH: usize = 256;

/// Room lent to a call. The memory for it is taken for the length of the call: 20 bytes for an arrival, 16 for a cost.
#[derive(Clone, Copy, Debug, PartialEq, Eq)]
pub struct Room {
    /// Leading arrivals that the call may keep. With more than 8,388,607 the search of a large front is hundreds of times slower.
    pub arrivals: usize,
    /// Front costs that a call of the front may list.
    pub costs: usize,
}

impl Default for Room {
    /// 2,000 arrivals and 200 costs, as document 01's program has.
    fn default() -> Room {
        Room { arrivals: 2_000, costs: 200 }
    }
}

/// The front of a sheet.
#[derive(Clone, Debug, PartialEq, Eq)]
pub struct Front {
    /// The front costs, ascending. Empty exactly when no lawful journey exists.
    pub costs: Vec<Offer>,
    /// The leading arrivals, ascending by step, place, cost.
    pub arrivals: Vec<Arrival>,
}

/// A front cost.
#[derive(Clone, Copy, Debug, PartialEq, Eq)]
pub struct Offer {
    /// The cost.
    pub cost: Cost,
    /// The earliest step at which a lawful journey with this cost arrives.
    pub arrival: Step,
}

/// A leading arrival: a lawful way from the start stands at the place at the step with the cost.
#[derive(Clone, Copy, Debug, PartialEq, Eq)]
pub struct Arrival {
    /// The place.
    pub place: Place,
    /// The step.
    pub step: Step,
    /// The cost.
    pub cost: Cost,
}

/// The journey of a front cost that the tie rule selects.
#[derive(Clone, Debug, PartialEq, Eq)]
pub struct Journey {
    /// The cost.
    pub cost: Cost,
    /// The step of the last place.
    pub arrival: Step,
    /// A place for each step from 0 to the arrival.
    pub places: Vec<Place>,
}

/// The front of a sheet's text. Refuses with the sheet's refusals, 8 and 9.
///
/// # Panics
/// Where the memory for the room cannot be had.
pub fn front(text: &[u8], room: Room) -> Result<Front, Refusal> {
    let mut table = zeros(room.arrivals, 5);
    let mut list = zeros(room.costs, 4);
    let answer = calls::front(text, &mut table, &mut list);
    Refusal::check(answer.refusal, answer.line)?;
    let offer = |[c1, c2, c3, step]: [u32; 4]| Offer { cost: [c1, c2, c3], arrival: Step(step) };
    let arrival = |[place, step, cost @ ..]: [u32; 5]| Arrival { place: Place(place), step: Step(step), cost };
    Ok(Front {
        costs: rows(&list, answer.costs as usize).map(offer).collect(),
        arrivals: rows(&table, answer.arrivals as usize).map(arrival).collect(),
    })
}

/// The journey with a number in the front, from 0, of a sheet's text. Of the room only that for arrivals counts.
/// Refuses with the sheet's refusals, 8 and 10.
///
/// # Panics
/// Where the memory for the room cannot be had.
pub fn journey(text: &[u8], number: u32, room: Room) -> Result<Journey, Refusal> {
    let mut table = zeros(room.arrivals, 5);
    let mut path = [0; MOST_PATH];
    let answer = calls::journey(text, number, &mut table, &mut path);
    Refusal::check(answer.refusal, answer.line)?;
    let places = path[..=answer.arrival as usize].iter().copied().map(Place).collect();
    Ok(Journey { cost: answer.cost, arrival: Step(answer.arrival), places })
}

/// An array of zeros with so many rows of a width.
fn zeros(rows: usize, width: usize) -> Vec<u32> {
    vec![0; rows.checked_mul(width).expect("room for more numbers than memory can hold")]
}
