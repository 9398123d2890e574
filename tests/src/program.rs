//! What the comparing programs share: their options, and counts of what came up.

use std::fmt::{Debug, Display};
use std::ops::{Deref, DerefMut};
use std::process::ExitCode;

use crate::random::Random;

/// Each thing that is counted must come up at least once in so many runs, if nothing else is said; fewer runs say nothing.
const OFTEN: u64 = 200;

/// How often each refusal number came up, 0 to 16.
pub type ByRefusal = [u64; 17];

/// How often each of so many things came up.
pub struct Tallies<const N: usize>([u64; N]);

impl<const N: usize> Default for Tallies<N> {
    fn default() -> Tallies<N> {
        Tallies([0; N])
    }
}

impl<const N: usize> Deref for Tallies<N> {
    type Target = [u64];

    fn deref(&self) -> &[u64] {
        &self.0
    }
}

impl<const N: usize> DerefMut for Tallies<N> {
    fn deref_mut(&mut self) -> &mut [u64] {
        &mut self.0
    }
}

/// What a program is asked for.
pub struct Options {
    pub seed: u64,
    pub runs: u64,
}

/// Things of one sort, each with how often it came up, which must be at least once in so many runs.
pub struct Counts {
    about: &'static str,
    counts: Vec<(String, u64)>,
    once_in: u64,
}

impl Counts {
    /// The counts of some things, by what they show as.
    pub fn of<K: Debug>(about: &'static str, things: &[K], counts: &[u64]) -> Counts {
        let counts = things.iter().zip(counts).map(|(thing, &n)| (format!("{thing:?}"), n)).collect();
        Counts { about, counts, once_in: OFTEN }
    }

    /// The counts of some refusal numbers; 0 is a call that is served.
    pub fn of_refusals(about: &'static str, numbers: &[usize], counts: &ByRefusal) -> Counts {
        let counts = numbers.iter().map(|&number| (number.to_string(), counts[number])).collect();
        Counts { about, counts, once_in: OFTEN }
    }

    /// The same counts of things that must come up at least once in so many runs.
    pub fn once_in(self, runs: u64) -> Counts {
        Counts { once_in: runs, ..self }
    }
}

/// Runs a comparison as the program's arguments say and prints whether it found a difference.
pub fn run(name: &str, runs: u64, compared: impl Fn(&Options) -> Result<Vec<Counts>, String>) -> ExitCode {
    let Some(options) = options(runs, std::env::args().skip(1)) else {
        eprintln!("usage: {name} [--seed N] [--runs N]");
        return ExitCode::from(2);
    };
    println!("{name}: seed {}, {} runs", options.seed, options.runs);
    match compared(&options).and_then(|counts| print_counts(&counts, options.runs)) {
        Ok(()) => {
            println!("all answers agree");
            ExitCode::SUCCESS
        }
        Err(failure) => {
            println!("FAILED: {failure}");
            ExitCode::FAILURE
        }
    }
}

/// Makes the runs of a comparison, each with its number, by the seed; a difference is told with its run. Hands back the
/// random numbers that are left.
pub fn runs<D: Display>(
    options: &Options,
    mut compare: impl FnMut(u64, &mut Random) -> Result<(), D>,
) -> Result<Random, String> {
    let mut random = Random::new(options.seed);
    for run in 1..=options.runs {
        compare(run, &mut random).map_err(|difference| format!("run {run}: {difference}"))?;
    }
    Ok(random)
}

/// The options that the arguments say.
fn options(runs: u64, mut arguments: impl Iterator<Item = String>) -> Option<Options> {
    let mut options = Options { seed: 1, runs };
    while let Some(name) = arguments.next() {
        let value = arguments.next()?.parse().ok()?;
        match name.as_str() {
            "--seed" => options.seed = value,
            "--runs" => options.runs = value,
            _ => return None,
        }
    }
    Some(options)
}

/// Prints the counts of so many runs; a failure where one is too low for the comparison to say anything.
fn print_counts(all: &[Counts], runs: u64) -> Result<(), String> {
    let mut seldom = Ok(());
    for Counts { about, counts, once_in } in all {
        let least = if runs < OFTEN { 0 } else { runs / once_in };
        let shown: Vec<String> = counts.iter().map(|(name, count)| format!("{name}: {count}")).collect();
        println!("{about}: {}", shown.join(", "));
        if let Some((name, count)) = counts.iter().find(|(_, count)| *count < least) {
            seldom = Err(format!("{about}, {name}: {count} times is too seldom, at least {least} are wanted"));
        }
    }
    seldom
}

/// Counts each kind of damage that was done.
pub fn count<D: PartialEq>(counts: &mut [u64], kinds: &[D], done: &[D]) {
    for (count, kind) in counts.iter_mut().zip(kinds) {
        *count += u64::from(done.contains(kind));
    }
}
