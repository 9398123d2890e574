//! Times planner_front beside every peer on sheets of the families without a plus, which bgl can be given, checks that
//! every peer gives the planner's costs, and prints a Markdown table. Started with what `Arguments` says.

use planner_bench::beside::{Measured, Sheet};
use planner_bench::peer::{FAMILIES, Folder, LIMIT, MOSIPP, PULL, Search};
use planner_bench::rounds::ROUNDS;
use planner_bench::{Arguments, SEEDS, median_of, shown, with_load};
use std::fmt;
use std::ops::RangeInclusive;

/// A peer: its name in the table, and its searches, of which the fastest on a sheet counts there.
struct Peer {
    name: &'static str,
    searches: &'static [Search],
}

/// The peers. Those before the last two find the front alone.
const PEERS: [Peer; 6] = [
    Peer {
        name: "bgl",
        searches: &[Search { program: "bgl", options: &[] }, Search { program: "bgl", options: &["--time"] }],
    },
    Peer {
        name: "dp",
        searches: &[Search { program: "dp", options: &[] }, Search { program: "dp", options: &["--sort"] }],
    },
    Peer {
        name: "namoa",
        searches: &[
            Search { program: "namoa", options: &["--h"] },
            Search { program: "namoa", options: &["--dr", "--h"] },
        ],
    },
    Peer {
        name: "mosipp --h",
        searches: &[
            Search { program: "mosipp", options: &["--h"] },
            Search { program: "mosipp", options: &["--h", "--eager"] },
        ],
    },
    Peer { name: "mosipp --all", searches: &[MOSIPP] },
    Peer { name: "pull --simd", searches: &[PULL] },
];

/// What was measured on a sheet, with the time of each peer's fastest search, infinite if none ended within the limit.
struct Row {
    sheet: Measured,
    peers: Vec<f64>,
}

/// A ratio, or a bound that it stays below.
struct Ratio {
    value: f64,
    is_bound: bool,
}

impl fmt::Display for Ratio {
    fn fmt(&self, formatter: &mut fmt::Formatter) -> fmt::Result {
        write!(formatter, "{}{}", if self.is_bound { "< " } else { "" }, shown(self.value))
    }
}

fn main() {
    let arguments = Arguments::read();
    let (folder, seeds) = (&arguments.folder, arguments.seeds(SEEDS));
    let peers: Vec<&Peer> = PEERS.iter().filter(|peer| peer.name != "bgl" || folder.has("bgl")).collect();
    with_load(|| {
        print_text(&seeds);
        print_heading(&peers);
        let print = |family: &&str| print_family(folder, &peers, family, seeds.clone());
        let ratios: Vec<Vec<Ratio>> = FAMILIES.iter().map(print).collect();
        println!();
        for (number, peer) in peers.iter().enumerate() {
            let value = median_of(&ratios, |ratios| ratios[number].value);
            let middle = Ratio { value, is_bound: ratios.iter().any(|ratios| ratios[number].is_bound) };
            println!("Median of the families' median ratios to {}: {middle}.", peer.name);
        }
        let sheets = FAMILIES.len() * seeds.clone().count();
        println!("Every search that ended gave the planner's front, on all {sheets} sheets.");
    });
}

/// Prints what the table holds.
fn print_text(seeds: &RangeInclusive<u32>) {
    println!(
        "Times in µs; those of all peers leave the reading out. Each ratio is of planner_front without reading, with room
for twice the arrivals, to the peer. mosipp --all (with --eager) and pull --simd find all leading arrivals, as the planner
does; the others find the front alone. Of a peer with several options the fastest on each sheet counts: bgl without and
with --time, with the building of the graph; dp without and with --sort; namoa --h and --dr --h; mosipp --h and --h
--eager. bgl is given the sheet in its older form, the others the planner's own text.
Medians over the seeds 1 to {} of a family; for each sheet the least of the medians of {ROUNDS} rounds, or of fewer for a
slow search. With `>` two searches had not ended after {} s; each counts as {LIMIT} s.
",
        seeds.end(),
        2 * LIMIT
    );
}

/// Prints the table's heading.
fn print_heading(peers: &[&Peer]) {
    print!("| family | arrivals | costs | planner | of it reading |");
    peers.iter().for_each(|peer| print!(" {} |", peer.name));
    peers.iter().for_each(|peer| print!(" ratio to {} |", peer.name));
    println!();
    println!("|---|{}", "---:|".repeat(4 + 2 * peers.len()));
}

/// Measures a family and prints its row; hands back the median ratio to each peer.
fn print_family(folder: &Folder, peers: &[&Peer], family: &str, seeds: RangeInclusive<u32>) -> Vec<Ratio> {
    let sheets = seeds.map(|seed| Sheet::generated(folder, seed, family, &[]));
    let rows: Vec<Row> = sheets.map(|sheet| measured(folder, peers, &sheet)).collect();
    let middle = |of: fn(&Measured) -> f64| median_of(&rows, |row| of(&row.sheet));
    print!("| {family} | {:.0} | {:.0} |", middle(|sheet| sheet.arrivals), middle(|sheet| sheet.costs));
    print!(" {} | {} |", shown(middle(|sheet| sheet.planner)), shown(middle(|sheet| sheet.reading)));
    (0..peers.len()).for_each(|number| print!(" {} |", time_shown(&rows, number)));
    let ratios: Vec<Ratio> = (0..peers.len()).map(|number| ratio(&rows, number)).collect();
    ratios.iter().for_each(|ratio| print!(" {ratio} |"));
    println!();
    ratios
}

/// The limit in microseconds.
const LIMIT_MICROS: f64 = LIMIT as f64 * 1e6;

/// The median of a peer's times. The limit stands for a search that did not end; where it counts, the median is more.
fn time_shown(rows: &[Row], number: usize) -> String {
    let past = rows.iter().filter(|row| row.peers[number].is_infinite()).count();
    let middle = median_of(rows, |row| row.peers[number].min(LIMIT_MICROS));
    if 2 * past < rows.len() { shown(middle) } else { format!("> {:.0} ms", middle / 1_000.0) }
}

/// The median ratio of the planner's time without reading to a peer's. The limit stands for a search that did not end.
fn ratio(rows: &[Row], number: usize) -> Ratio {
    let value = median_of(rows, |row| row.sheet.search() / row.peers[number].min(LIMIT_MICROS));
    Ratio { value, is_bound: rows.iter().any(|row| row.peers[number].is_infinite()) }
}

/// Measures a sheet on all sides.
fn measured(folder: &Folder, peers: &[&Peer], sheet: &Sheet) -> Row {
    let searches: Vec<Search> = peers.iter().flat_map(|peer| peer.searches).copied().collect();
    let sheet = Measured::of(sheet, folder, &searches, vec![]);
    let mut times = sheet.peers.iter().copied();
    let fastest = |peer: &&Peer| times.by_ref().take(peer.searches.len()).fold(f64::INFINITY, f64::min);
    let peers = peers.iter().map(fastest).collect();
    Row { sheet, peers }
}
