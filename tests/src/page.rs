//! The page that the program prints for a sheet, from the references' answers, written from document 01 alone.

use crate::step_by_step::{Offer, Refusal, front_of, journey_of};

/// The program's room: 2,000 arrivals of five numbers, 200 costs of four.
pub const PROGRAM_LENS: [usize; 2] = [5 * 2_000, 4 * 200];

/// A journey has at most so many places, one for each step from 0 to 255.
const MOST_PLACES: usize = 256;

/// The page of a text that offers this: the counts and the two lines of each cost, or the refusal alone.
pub fn page_of(offered: &Result<Offer, Refusal>) -> String {
    let [mut arrivals, mut list] = PROGRAM_LENS.map(|len| vec![0; len]);
    let answer = front_of(offered, &mut arrivals, &mut list);
    if answer.refusal > 0 {
        return line_of('R', &[answer.refusal, answer.line]);
    }
    let journeys = (0..).take(answer.costs as usize).map(|number| lines_of_journey(offered, number, &mut arrivals));
    line_of('F', &[answer.costs, answer.arrivals]) + &journeys.collect::<String>()
}

/// The lines of the journey with this number: its cost and arrival step, its places.
fn lines_of_journey(offered: &Result<Offer, Refusal>, number: u32, arrivals: &mut [u32]) -> String {
    let mut path = [0; MOST_PLACES];
    let answer = journey_of(offered, number, arrivals, &mut path);
    let [a, b, c] = answer.cost;
    line_of('J', &[a, b, c, answer.arrival]) + &line_of('P', &path[..=answer.arrival as usize])
}

/// A line of a page: its letter and numbers.
pub fn line_of(letter: char, numbers: &[impl ToString]) -> String {
    let numbers: Vec<String> = numbers.iter().map(ToString::to_string).collect();
    format!("{letter},{}\n", numbers.join(","))
}
