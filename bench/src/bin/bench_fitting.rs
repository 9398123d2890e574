//! Times planner_front with an arrivals table that just fits beside one with room for twice the arrivals, on some
//! families of the peers' generator, and prints a Markdown table. Started with what `Arguments` says.

use planner_bench::beside::{Measured, Sheet};
use planner_bench::peer::{Folder, MOSIPP};
use planner_bench::{Arguments, median_of, with_load};
use std::ops::RangeInclusive;

/// Sheets of few and of many arrivals, with one waiting cost and with one for each place.
const FAMILIES: [&str; 6] = ["small", "dear", "bigdear", "line+", "dear+", "bigdear+"];

/// The number of sheets of a family, if it is not said.
const SEEDS: u32 = 3;

fn main() {
    let arguments = Arguments::read();
    let seeds = arguments.seeds(SEEDS);
    with_load(|| {
        println!(
            "Times in µs: planner_front with room for twice the arrivals and with room that just fits, and mosipp --all --eager,
whose time leaves the reading out. The ratios are to mosipp, without reading. Medians over the seeds 1 to {} of a family.
",
            seeds.end()
        );
        println!(
            "| family | arrivals | twice | just fits | just fits to twice: median | greatest | mosipp | ratio with twice | just fits |"
        );
        println!("|---|{}", "---:|".repeat(8));
        FAMILIES.iter().for_each(|family| print_family(&arguments.folder, family, seeds.clone()));
        println!();
    });
}

/// Measures a family and prints its row.
fn print_family(folder: &Folder, family: &str, seeds: RangeInclusive<u32>) {
    let sheets = seeds.map(|seed| Sheet::generated(folder, seed, family, &[]));
    let measured = |sheet: Sheet| Measured::of(&sheet, folder, &[MOSIPP], vec![sheet.front_side(1)]);
    let rows: Vec<Measured> = sheets.map(measured).collect();
    let middle = |of: fn(&Measured) -> f64| median_of(&rows, of);
    let more = |row: &Measured| row.further[0] / row.planner;
    println!(
        "| {family} | {:.0} | {:.1} | {:.1} | {:.2} | {:.2} | {:.1} | {:.2} | {:.2} |",
        middle(|row| row.arrivals),
        middle(|row| row.planner),
        middle(|row| row.further[0]),
        median_of(&rows, more),
        rows.iter().map(more).fold(0.0, f64::max),
        middle(|row| row.peer(0)),
        middle(|row| row.ratio(0)),
        middle(|row| (row.further[0] - row.reading) / row.peer(0))
    );
}
