//! The one way in which a sheet is measured: the planner's calls and the peers' searches are sides of a comparison, timed
//! in turns; every answer of a peer must agree with the planner's.

use crate::form::parts;
use crate::front::{Front, journey_micros, reading_micros};
use crate::peer::{Folder, LIMIT, Search};
use crate::rounds::{self, Side};

/// The planner's table has room for so many times the arrivals, if it is not said.
pub const ROOM: usize = 2;

/// A sheet with its front as the planner has it, and a name for messages.
pub struct Sheet {
    pub name: String,
    pub text: Vec<u8>,
    pub front: Front,
}

impl Sheet {
    pub fn new(name: String, text: Vec<u8>) -> Sheet {
        let front = Front::of(&text);
        Sheet { name, text, front }
    }

    /// A sheet of the peers' generator.
    pub fn generated(folder: &Folder, seed: u32, family: &str, options: &[(&str, u32)]) -> Sheet {
        Sheet::new(format!("seed {seed} of {family} with {options:?}"), folder.sheet(seed, family, options))
    }

    /// The count of its places.
    pub fn places(&self) -> f64 {
        self.head(1)
    }

    /// Its last step.
    pub fn steps(&self) -> f64 {
        self.head(2)
    }

    /// A number of its S line.
    fn head(&self, position: usize) -> f64 {
        parts(&self.text).0[position].parse().expect("the S line has numbers")
    }

    /// How many lines of a kind it has.
    pub fn lines(&self, kind: char) -> f64 {
        parts(&self.text).1.lines().filter(|line| line.starts_with(kind)).count() as f64
    }

    /// planner_front with room for so many times the arrivals.
    pub fn front_side(&self, rooms: usize) -> Side<'_> {
        Side::new(move |repetitions| self.front.micros(&self.text, rooms * self.front.arrivals, repetitions))
    }

    /// planner_journey by a number.
    pub fn journey_side(&self, number: u32) -> Side<'_> {
        let room = ROOM * self.front.arrivals;
        Side::new(move |repetitions| journey_micros(&self.text, number, room, repetitions))
    }

    /// planner_read.
    fn reading_side(&self) -> Side<'_> {
        Side::new(|repetitions| reading_micros(&self.text, repetitions))
    }

    /// A peer's search, which must agree with the planner in every round.
    fn peer_side<'a>(&'a self, folder: &'a Folder, search: Search) -> Side<'a> {
        let Some(first) = folder.first_found(search, &self.text) else { return Side::without_end() };
        first.assert_agrees(&self.front, search, &self.name);
        Side::after(first.micros, move |repetitions| {
            let found = folder.found(search, &self.text, repetitions);
            found.assert_agrees(&self.front, search, &self.name);
            found.micros
        })
    }
}

/// What was measured on a sheet, times in microseconds: of planner_front with room for twice the arrivals, of
/// planner_read, of the peers' searches, infinite for one that did not end within the limit, and of further sides.
pub struct Measured {
    pub costs: f64,
    pub arrivals: f64,
    pub planner: f64,
    pub reading: f64,
    pub peers: Vec<f64>,
    pub further: Vec<f64>,
}

impl Measured {
    /// Measures a sheet beside peers, with further sides of the planner in the same rounds.
    pub fn of(sheet: &Sheet, folder: &Folder, searches: &[Search], further: Vec<Side>) -> Measured {
        let mut sides = vec![sheet.front_side(ROOM), sheet.reading_side()];
        sides.extend(searches.iter().map(|&search| sheet.peer_side(folder, search)));
        sides.extend(further);
        rounds::time(&mut sides);
        let times: Vec<f64> = sides.iter().map(|side| side.micros).collect();
        let (peers, further) = times[2..].split_at(searches.len());
        Measured {
            costs: sheet.front.costs.len() as f64,
            arrivals: sheet.front.arrivals as f64,
            planner: times[0],
            reading: times[1],
            peers: peers.to_vec(),
            further: further.to_vec(),
        }
    }

    /// The planner's time without reading.
    pub fn search(&self) -> f64 {
        self.planner - self.reading
    }

    /// The time of a peer that must have ended.
    pub fn peer(&self, number: usize) -> f64 {
        let micros = self.peers[number];
        assert!(micros.is_finite(), "a peer's search takes longer than {LIMIT} s");
        micros
    }

    /// The planner's time without reading, beside that of a peer that must have ended.
    pub fn ratio(&self, number: usize) -> f64 {
        self.search() / self.peer(number)
    }
}
