//! The planner's side: the front of a sheet, and the times of the calls.

use crate::median;
use planner_tests::planner;
use std::hint::black_box;
use std::time::Instant;

/// The refusals for want of room, in the arrivals table and in the front list.
const TOO_LITTLE_ROOM: [u32; 2] = [8, 9];

/// The rooms with which a front is looked for.
const ROOMS: [usize; 2] = [1 << 13, 1 << 20];

/// The front of a sheet: its costs, and the number of leading arrivals.
#[derive(Debug, PartialEq)]
pub struct Front {
    pub costs: Vec<[u32; 3]>,
    pub arrivals: usize,
}

impl Front {
    /// The planner's front of a sheet, with as much room as it needs.
    pub fn of(text: &[u8]) -> Front {
        let with_room = |&room: &usize| Front::in_buffers(text, &mut vec![0; 5 * room], &mut vec![0; 4 * room]);
        ROOMS.iter().find_map(with_room).expect("the front has more arrivals than the greatest room")
    }

    /// The planner's front of a sheet, if the buffers are enough for the arrivals and the costs.
    fn in_buffers(text: &[u8], arrivals: &mut [u32], list: &mut [u32]) -> Option<Front> {
        let answer = planner::front(text, arrivals, list);
        if TOO_LITTLE_ROOM.contains(&answer.refusal) {
            return None;
        }
        assert_eq!(answer.refusal, 0, "the planner refuses a generated sheet at line {}", answer.line);
        let rows = list.as_chunks::<4>().0.iter().take(answer.costs as usize);
        Some(Front { costs: rows.map(|&[a, b, c, _]| [a, b, c]).collect(), arrivals: answer.arrivals as usize })
    }

    /// The median time of so many calls of planner_front, with room for so many arrivals and for just the costs, after
    /// one that is not timed.
    pub fn micros(&self, text: &[u8], room: usize, repetitions: u32) -> f64 {
        let [mut arrivals, mut list] = [vec![0; 5 * room], vec![0; 4 * self.costs.len()]];
        let front = Front::in_buffers(text, &mut arrivals, &mut list);
        assert!(front.as_ref() == Some(self), "another front with room for {room} arrivals");
        micros(repetitions, || planner::front(black_box(text), &mut arrivals, &mut list).refusal)
    }
}

/// The median time of so many calls of planner_journey by a number, with room for so many arrivals and every step,
/// after one that is not timed.
pub fn journey_micros(text: &[u8], number: u32, room: usize, repetitions: u32) -> f64 {
    let [mut arrivals, mut path] = [vec![0; 5 * room], vec![0; 256]];
    let refusal = planner::journey(text, number, &mut arrivals, &mut path).refusal;
    assert_eq!(refusal, 0, "there is no journey with the number {number}");
    micros(repetitions, || planner::journey(black_box(text), number, &mut arrivals, &mut path).refusal)
}

/// The median time of so many calls of planner_read.
pub fn reading_micros(text: &[u8], repetitions: u32) -> f64 {
    micros(repetitions, || planner::read(black_box(text)).refusal)
}

/// The median time of some calls, each timed alone, in microseconds.
fn micros(repetitions: u32, mut call: impl FnMut() -> u32) -> f64 {
    let mut time = || {
        let start = Instant::now();
        black_box(call());
        start.elapsed().as_nanos() as f64 / 1_000.0
    };
    median((0..repetitions).map(|_| time()).collect())
}
