//! Times of the planner's calls beside those of plain Rust and of the peers.

use std::hint::black_box;
use std::ops::RangeInclusive;
use std::path::PathBuf;
use std::time::{Duration, Instant};

pub mod beside;
pub mod diamonds;
pub mod form;
pub mod front;
pub mod peer;
pub mod plot;
pub mod rounds;

/// So many samples are taken of each call, each at least so long.
const SAMPLES: usize = 1_001;
const SAMPLE: Duration = Duration::from_micros(50);

/// The median times of one call of the planner and of plain Rust, in nanoseconds.
pub struct Times {
    pub planner: f64,
    pub plain: f64,
}

/// Times two calls side by side: a sample of one, then a sample of the other.
pub fn times<T>(mut planner: impl FnMut() -> T, mut plain: impl FnMut() -> T) -> Times {
    let (planner_calls, plain_calls) = (calls_in_a_sample(&mut planner), calls_in_a_sample(&mut plain));
    let mut of_planner = Vec::with_capacity(SAMPLES);
    let mut of_plain = Vec::with_capacity(SAMPLES);
    for _ in 0..SAMPLES {
        of_planner.push(time_of_call(planner_calls, &mut planner));
        of_plain.push(time_of_call(plain_calls, &mut plain));
    }
    Times { planner: median(of_planner), plain: median(of_plain) }
}

/// How many calls a sample needs to be long enough.
fn calls_in_a_sample<T>(call: &mut impl FnMut() -> T) -> u32 {
    let mut calls = 1;
    while time_of_call(calls, call) * f64::from(calls) < SAMPLE.as_nanos() as f64 {
        calls *= 2;
    }
    calls
}

/// The mean time of so many calls, in nanoseconds.
fn time_of_call<T>(calls: u32, call: &mut impl FnMut() -> T) -> f64 {
    let start = Instant::now();
    for _ in 0..calls {
        black_box(call());
    }
    start.elapsed().as_nanos() as f64 / f64::from(calls)
}

/// The middle one of some values, or the mean of the two middle ones.
pub fn median(mut values: Vec<f64>) -> f64 {
    values.sort_by(f64::total_cmp);
    (values[(values.len() - 1) / 2] + values[values.len() / 2]) / 2.0
}

/// The median of a value of some rows.
pub fn median_of<T>(rows: &[T], value: impl Fn(&T) -> f64) -> f64 {
    median(rows.iter().map(value).collect())
}

/// A positive value with three digits that count, or with all those before the point.
pub fn shown(value: f64) -> String {
    let decimals = (2.0 - value.log10().floor()).clamp(0.0, 6.0) as usize;
    format!("{value:.decimals$}")
}

/// The number of sheets of a family, if it is not said; with a plus after its name.
pub const SEEDS: u32 = 12;
const SEEDS_WITH_PLUS: u32 = 6;

/// What a program that searches sheets is started with: `FOLDER PLOTS [SEEDS]`, the folder with the peers' programs,
/// that for the plots, and the number of sheets of each family.
pub struct Arguments {
    pub folder: peer::Folder,
    pub plots: PathBuf,
    seeds: Option<u32>,
}

impl Arguments {
    pub fn read() -> Arguments {
        let arguments: Vec<String> = std::env::args().skip(1).collect();
        let [folder, plots, seeds @ ..] = &arguments[..] else { panic!("the arguments are FOLDER PLOTS [SEEDS]") };
        let number = |digits: &String| digits.parse().ok().filter(|&seeds| seeds > 0).expect("SEEDS is above 0");
        Arguments { folder: peer::Folder(folder.into()), plots: plots.into(), seeds: seeds.first().map(number) }
    }

    /// The seeds of the sheets of a row: as many as were asked for, or the usual number.
    pub fn seeds(&self, usual: u32) -> RangeInclusive<u32> {
        1..=self.seeds.unwrap_or(usual)
    }

    /// The seeds of the sheets of a family: fewer with a plus, since its searches take longer.
    pub fn seeds_of(&self, family: &str) -> RangeInclusive<u32> {
        self.seeds(if family.ends_with('+') { SEEDS_WITH_PLUS } else { SEEDS })
    }
}

/// Prints a table, and the machine's load before and after.
pub fn with_load(print_table: impl FnOnce()) {
    let before = load_average();
    print_table();
    println!("Load of the machine before and after: {before}; {}.", load_average());
}

/// How many processes ran or waited for a processor in the last minute, if the system says it.
fn load_average() -> String {
    let content = std::fs::read_to_string("/proc/loadavg").unwrap_or_default();
    content.split_whitespace().next().unwrap_or("unknown").to_string()
}
