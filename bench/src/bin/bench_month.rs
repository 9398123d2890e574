//! Times target/bin/month_page beside plain Rust (`plain_month`), both as processes that read a file, and prints a Markdown
//! table. What a program takes for one line, the start of a process for the most part, is taken off what it takes for a month.

use planner_bench::median;
use planner_tests::month::{MOST_FIGURE, page_of};
use planner_tests::random::Random;
use std::fs::{self, File};
use std::ops::RangeInclusive;
use std::path::{Path, PathBuf};
use std::process::{Command, Stdio};
use std::time::Instant;

/// Each program is run so many times on each month, in turns.
const RUNS: usize = 1_001;

/// So many lines are in a month.
const LINES: usize = 4_096;

/// Where a program is.
struct Program(PathBuf);

/// The median and the least time of a program on a month, in microseconds.
#[derive(Clone, Copy)]
struct Time {
    median: f64,
    least: f64,
}

impl Time {
    /// The time of some runs.
    fn of(micros: Vec<f64>) -> Time {
        Time { least: micros.iter().copied().fold(f64::INFINITY, f64::min), median: median(micros) }
    }

    /// What is left of it without another.
    fn net(self, other: Time) -> Time {
        Time { median: self.median - other.median, least: self.least - other.least }
    }
}

fn main() {
    let arguments: Vec<PathBuf> = std::env::args().skip(1).map(PathBuf::from).collect();
    let [ours, plain, folder] = &arguments[..] else { panic!("the arguments are MONTH_PAGE PLAIN_MONTH FOLDER") };
    let programs = [Program(ours.clone()), Program(plain.clone())];
    println!(
        "| month | bytes | month_page, µs | plain Rust, µs | ratio: medians | least times | with the start of a process |"
    );
    println!("|---|---:|---:|---:|---:|---:|---:|");
    for (name, figures) in [("eight digits", 10_000_000..=MOST_FIGURE as u32), ("one digit", 0..=9)] {
        let texts = [LINES, 1].map(|lines| month_of(lines, &figures, &mut Random::new(1)));
        print_row(name, &programs, &texts, folder);
    }
    println!();
    println!("{RUNS} runs of each, in turns. The goal is a ratio of at most 3.");
}

/// The text of a month of so many lines, with figures of a range.
fn month_of(lines: usize, figures: &RangeInclusive<u32>, random: &mut Random) -> String {
    let mut figure = || random.from_to(*figures.start(), *figures.end());
    (0..lines).map(|_| format!("M,{},{},{}\n", figure(), figure(), figure())).collect()
}

/// Times both programs on a month and on one line, once their pages are right, and prints a row.
fn print_row(digits: &str, programs: &[Program; 2], texts: &[String; 2], folder: &Path) {
    let files = [folder.join("month.txt"), folder.join("line.txt")];
    for (file, text) in files.iter().zip(texts) {
        fs::write(file, text).expect("the folder is writable");
        programs.iter().for_each(|program| program.assert_prints(file, &page_of(text.as_bytes())));
    }
    let [[ours, our_start], [plain, plain_start]] = times(programs, &files);
    let [our_net, plain_net] = [ours.net(our_start), plain.net(plain_start)];
    println!(
        "| {LINES} lines, figures of {digits} | {} | {:.0} | {:.0} | {:.2} | {:.2} | {:.2} |",
        texts[0].len(),
        our_net.median,
        plain_net.median,
        our_net.median / plain_net.median,
        our_net.least / plain_net.least,
        ours.median / plain.median
    );
}

/// The times of each program on each file.
fn times(programs: &[Program; 2], files: &[PathBuf; 2]) -> [[Time; 2]; 2] {
    let mut micros = [[vec![], vec![]], [vec![], vec![]]];
    for _ in 0..RUNS {
        for (program, micros) in programs.iter().zip(&mut micros) {
            for (file, micros) in files.iter().zip(micros) {
                micros.push(program.micros(file));
            }
        }
    }
    micros.map(|of_files| of_files.map(Time::of))
}

impl Program {
    /// The program as a process that is to read a file.
    fn command(&self, file: &Path) -> Command {
        let mut command = Command::new(&self.0);
        command.stdin(File::open(file).expect("the month is readable"));
        command
    }

    /// Fails unless the program prints this page for a file.
    fn assert_prints(&self, file: &Path, page: &str) {
        let output = self.command(file).output().expect("the program starts");
        assert_eq!(String::from_utf8_lossy(&output.stdout), page, "{} on {}", self.0.display(), file.display());
    }

    /// The time of a run on a file, from the start of the process to its end.
    fn micros(&self, file: &Path) -> f64 {
        let mut command = self.command(file);
        command.stdout(Stdio::null());
        let start = Instant::now();
        let status = command.status().expect("the program starts");
        let time = start.elapsed();
        assert!(status.success(), "{} failed: {status}", self.0.display());
        time.as_nanos() as f64 / 1_000.0
    }
}
