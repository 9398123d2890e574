//! Rounds in which the sides of a comparison are timed in turn. Of the rounds' medians the least counts, on every
//! side: other work on the machine only adds to a time, and more to a long one.

/// A side is timed in so many rounds, in each for about so many microseconds, at most 200 times.
pub const ROUNDS: usize = 21;
const ROUND: f64 = 4_000.0;

/// A side whose rounds would together take longer than so many microseconds is timed in fewer, at least in one.
const ALL_ROUNDS: f64 = 2_000_000.0;

/// A side of a comparison on one sheet.
pub struct Side<'a> {
    repetitions: u32,
    rounds: usize,
    round: Box<dyn Fn(u32) -> f64 + 'a>,
    /// The least of the rounds' medians so far, in microseconds.
    pub micros: f64,
}

impl<'a> Side<'a> {
    /// A side with what times a round of so many searches, after one that is not timed.
    pub fn new(round: impl Fn(u32) -> f64 + 'a) -> Side<'a> {
        let first = round(1);
        Side::after(first, round)
    }

    /// A side whose first search took so many microseconds.
    pub fn after(first: f64, round: impl Fn(u32) -> f64 + 'a) -> Side<'a> {
        let repetitions = (ROUND / first).clamp(1.0, 200.0).floor();
        let rounds = ALL_ROUNDS / (first * (repetitions + 1.0));
        Side {
            repetitions: repetitions as u32,
            rounds: rounds.clamp(1.0, ROUNDS as f64) as usize,
            round: Box::new(round),
            micros: f64::INFINITY,
        }
    }

    /// A side that is not timed, since its first search did not end in time: its time stays infinite.
    pub fn without_end() -> Side<'a> {
        Side { repetitions: 0, rounds: 0, round: Box::new(|_| f64::INFINITY), micros: f64::INFINITY }
    }
}

/// Times the sides, one round of each after the other.
pub fn time(sides: &mut [Side]) {
    for round in 0..ROUNDS {
        for side in sides.iter_mut().filter(|side| round < side.rounds) {
            side.micros = side.micros.min((side.round)(side.repetitions));
        }
    }
}
