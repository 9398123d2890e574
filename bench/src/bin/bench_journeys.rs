//! Times planner_journey beside planner_front on sheets of all families of the peers' generator and prints a Markdown
//! table. Started with what `Arguments` says.

use planner_bench::beside::{Measured, Sheet};
use planner_bench::peer::{Folder, families};
use planner_bench::rounds::ROUNDS;
use planner_bench::{Arguments, median, median_of, with_load};
use std::ops::RangeInclusive;

fn main() {
    let arguments = Arguments::read();
    with_load(|| {
        println!(
            "planner_journey by the first, the middle and the last number of the front beside planner_front, both from the
sheet's bytes and with room for twice the arrivals; sheets with an empty front are left out. Medians over the numbers of a
sheet, then over the seeds 1 to {} of a family, 1 to {} with a plus, least and greatest ratio of any number; for each call
the least of the medians of {ROUNDS} rounds, or of fewer for a slow search.
",
            arguments.seeds_of("").end(),
            arguments.seeds_of("+").end()
        );
        println!("| family | sheets | arrivals | costs | front, µs | journey, µs | ratio: median | least | greatest |");
        println!("|---|{}", "---:|".repeat(8));
        let print = |family: String| print_family(&arguments.folder, &family, arguments.seeds_of(&family));
        let ratios = families().filter_map(print).collect();
        println!();
        println!("Median of the families' median ratios: {:.2}.", median(ratios));
    });
}

/// Measures a family and prints its row; hands back the median ratio, if a sheet has a front.
fn print_family(folder: &Folder, family: &str, seeds: RangeInclusive<u32>) -> Option<f64> {
    let rows: Vec<Measured> = seeds.filter_map(|seed| measured(folder, seed, family)).collect();
    if rows.is_empty() {
        println!("| {family} | 0 |{}", " – |".repeat(7));
        return None;
    }
    let journey = |row: &Measured| median(row.further.clone());
    let ratios = || rows.iter().flat_map(|row| row.further.iter().map(|journey| journey / row.planner));
    let ratio = median_of(&rows, |row| journey(row) / row.planner);
    println!(
        "| {family} | {} | {:.0} | {:.0} | {:.1} | {:.1} | {ratio:.2} | {:.2} | {:.2} |",
        rows.len(),
        median_of(&rows, |row| row.arrivals),
        median_of(&rows, |row| row.costs),
        median_of(&rows, |row| row.planner),
        median_of(&rows, journey),
        ratios().fold(f64::INFINITY, f64::min),
        ratios().fold(0.0, f64::max)
    );
    Some(ratio)
}

/// Measures a sheet with its first, its middle and its last journey, unless its front is empty.
fn measured(folder: &Folder, seed: u32, family: &str) -> Option<Measured> {
    let sheet = Sheet::generated(folder, seed, family, &[]);
    let last = sheet.front.costs.len().checked_sub(1)? as u32;
    let mut numbers = vec![0, last / 2, last];
    numbers.dedup();
    let journeys = numbers.iter().map(|&number| sheet.journey_side(number)).collect();
    Some(Measured::of(&sheet, folder, &[], journeys))
}
