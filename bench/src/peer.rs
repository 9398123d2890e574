//! The peers' programs: `gen`, which prints a random sheet of a family, and those that search a sheet. All are given the
//! planner's own text but bgl, which reads only the older form of `form`.

use crate::form::{to_older, to_planner};
use crate::front::Front;
use std::borrow::Cow;
use std::io::Write;
use std::path::PathBuf;
use std::process::{Command, Output, Stdio};
use std::str::FromStr;

/// The families of sheets that `gen` knows.
pub const FAMILIES: [&str; 14] = [
    "tiny", "small", "line", "wardlite", "freelite", "dearlite", "wardmid", "ward", "free", "dear", "bigward",
    "bigdear", "bigfront", "diamond",
];

/// The families, and each of them once more with a plus: with waiting costs by place, closures and a time to unload.
pub fn families() -> impl Iterator<Item = String> {
    ["", "+"].into_iter().flat_map(|mark| FAMILIES.iter().map(move |family| format!("{family}{mark}")))
}

/// A search: a program with options.
#[derive(Clone, Copy)]
pub struct Search {
    pub program: &'static str,
    pub options: &'static [&'static str],
}

/// The peers that find all leading arrivals, as the planner does.
pub const MOSIPP: Search = Search { program: "mosipp", options: &["--all", "--eager"] };
pub const PULL: Search = Search { program: "pull", options: &["--simd"] };

impl Search {
    /// Whether it finds all leading arrivals, not the front alone.
    fn finds_all(self) -> bool {
        self.program == PULL.program || self.options.contains(&"--all")
    }

    /// The text that the program is given for a planner's sheet.
    fn input(self, text: &[u8]) -> Cow<'_, [u8]> {
        if self.program == "bgl" { to_older(text).into() } else { text.into() }
    }
}

/// A peer's first run, of two searches, may take twice so many seconds.
pub const LIMIT: u32 = 2;

/// The status of `timeout` where it ended the program.
const ENDED: Option<i32> = Some(124);

/// The folder with the peers' programs.
pub struct Folder(pub PathBuf);

/// What a peer says of a sheet: the front as its number of costs, a checksum and, except for bgl, a list; the number
/// of leading arrivals, if the peer finds them all; the median time of its search, which leaves the reading out.
pub struct Found {
    count: usize,
    checksum: String,
    list: Vec<[u32; 3]>,
    arrivals: Option<usize>,
    pub micros: f64,
}

impl Found {
    /// Fails unless all that the peer says agrees with the planner's front.
    pub fn assert_agrees(&self, front: &Front, search: Search, sheet: &str) {
        let same_costs = self.count == front.costs.len() && self.checksum == checksum(&front.costs);
        let same_list = self.list == front.costs || (self.list.is_empty() && search.program == "bgl");
        let same_arrivals = self.arrivals.map_or(!search.finds_all(), |arrivals| arrivals == front.arrivals);
        assert!(
            same_costs && same_list && same_arrivals,
            "{sheet}: {} {:?} has {} costs {:?} with the checksum {} and {:?} arrivals, the planner has {front:?}",
            search.program,
            search.options,
            self.count,
            self.list,
            self.checksum,
            self.arrivals
        );
    }
}

impl Folder {
    /// Whether the folder has a program.
    pub fn has(&self, program: &str) -> bool {
        self.0.join(program).exists()
    }

    /// The text of a sheet of a family as the planner reads it; the options change T, the places, the occupancies, the
    /// waiting costs or the closures.
    pub fn sheet(&self, seed: u32, family: &str, options: &[(&str, u32)]) -> Vec<u8> {
        let mut command = Command::new(self.0.join("gen"));
        command.arg(seed.to_string()).arg(family);
        for (name, value) in options {
            command.arg(name).arg(value.to_string());
        }
        to_planner(&succeeded(output(&mut command, b""), "gen").stdout)
    }

    /// What a peer says of a sheet, searched twice; nothing if it has not ended after twice the limit.
    pub fn first_found(&self, search: Search, text: &[u8]) -> Option<Found> {
        let mut command = Command::new("timeout");
        command.arg((2 * LIMIT).to_string()).arg(self.0.join(search.program));
        let output = output(arguments(&mut command, search, 1), &search.input(text));
        (output.status.code() != ENDED).then(|| found(succeeded(output, search.program)))
    }

    /// What a peer says of a sheet, searched once and then so many times.
    pub fn found(&self, search: Search, text: &[u8], repetitions: u32) -> Found {
        let mut command = Command::new(self.0.join(search.program));
        let output = output(arguments(&mut command, search, repetitions), &search.input(text));
        found(succeeded(output, search.program))
    }
}

/// The command with the arguments of a search.
fn arguments(command: &mut Command, search: Search, repetitions: u32) -> &mut Command {
    command.args(search.options).args(["--print", "--repeat", &repetitions.to_string()])
}

/// What a program prints for an input, and how it ends.
fn output(command: &mut Command, input: &[u8]) -> Output {
    command.stdin(Stdio::piped()).stdout(Stdio::piped());
    let mut child = command.spawn().unwrap_or_else(|error| panic!("{command:?} does not start: {error}"));
    let mut stdin = child.stdin.take().expect("the input is a pipe");
    stdin.write_all(input).expect("the program reads its input");
    drop(stdin);
    child.wait_with_output().expect("the program ends")
}

/// The output of a program that has not failed.
fn succeeded(output: Output, program: &str) -> Output {
    assert!(output.status.success(), "{program} failed: {}", output.status);
    output
}

/// What a peer's output says: `COUNT CHECKSUM kept=.. gen=.. [arrivals=..]`, the list if it prints one, and the times.
fn found(output: Output) -> Found {
    let text = String::from_utf8(output.stdout).expect("a peer prints text");
    let mut words = text.split_whitespace();
    let [count, checksum] = [words.next(), words.next()].map(|word| word.expect("a peer prints its front"));
    Found {
        count: count.parse().expect("a peer prints its number of costs"),
        checksum: checksum.to_string(),
        list: text.lines().filter(|line| line.starts_with('[')).map(cost_of).collect(),
        arrivals: field(&text, "arrivals="),
        micros: field(&text, "us_med=").expect("a peer prints its time"),
    }
}

/// The cost that a line `[c1, c2, c3]` says.
fn cost_of(line: &str) -> [u32; 3] {
    let figures: Vec<u32> =
        line.trim_matches(['[', ']']).split(", ").filter_map(|digits| digits.parse().ok()).collect();
    figures.try_into().unwrap_or_else(|_| panic!("a peer prints {line:?} for a cost"))
}

/// The number after a name in a peer's output, if it is there.
fn field<T: FromStr>(output: &str, name: &str) -> Option<T> {
    let digits = output.split_whitespace().find_map(|word| word.strip_prefix(name))?;
    Some(digits.parse().unwrap_or_else(|_| panic!("a peer prints {digits:?} after {name}")))
}

/// The checksum of a front as the peers print it: FNV-1a of 64 bits over the figures in the order of the list, each
/// as four bytes, the least first.
fn checksum(costs: &[[u32; 3]]) -> String {
    let bytes = costs.as_flattened().iter().flat_map(|figure| figure.to_le_bytes());
    let hash =
        bytes.fold(0xcbf2_9ce4_8422_2325_u64, |hash, byte| (hash ^ u64::from(byte)).wrapping_mul(0x0100_0000_01b3));
    format!("{hash:016x}")
}
