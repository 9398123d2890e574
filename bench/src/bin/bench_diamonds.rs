//! Times planner_front and planner_journey on sheets with large fronts beside the search alone and beside mosipp, checks
//! that both sides give the same costs and the same number of leading arrivals, and prints a Markdown table. Started with
//! what `Arguments` says.

use planner_bench::beside::{Measured, ROOM, Sheet};
use planner_bench::diamonds::{self, Ways};
use planner_bench::peer::{Folder, MOSIPP};
use planner_bench::{Arguments, SEEDS, median_of, with_load};
use std::ops::RangeInclusive;

/// The numbers of diamonds, for 64 to 4,096 costs.
const DIAMONDS: [u32; 4] = [6, 8, 10, 12];

fn main() {
    let arguments = Arguments::read();
    let seeds = arguments.seeds(SEEDS);
    with_load(|| {
        println!(
            "Times in µs; the search alone is planner_front of the same sheet with the goal at its start, which has the same
arrivals. The journeys are those with the first and with the last number. mosipp --all --eager leaves the reading out. Room
for twice the arrivals, and for just the costs. Medians over the seeds 1 to {}.
",
            seeds.end()
        );
        println!(
            "| ways | costs | arrivals | search alone | front | front to search | first journey | last | mosipp |"
        );
        println!("|---|{}", "---:|".repeat(8));
        for ways in Ways::ALL {
            DIAMONDS.iter().for_each(|&count| print_row(&arguments.folder, ways, count, seeds.clone()));
        }
        println!();
        println!("Both sides gave the same costs and the same number of arrivals on every sheet.");
    });
}

/// Measures the sheets of so many diamonds and prints their row.
fn print_row(folder: &Folder, ways: Ways, count: u32, seeds: RangeInclusive<u32>) {
    let rows: Vec<Measured> = seeds.map(|seed| measured(folder, &diamonds::sheet(ways, count, seed))).collect();
    let middle = |of: fn(&Measured) -> f64| median_of(&rows, of);
    println!(
        "| {} | {:.0} | {:.0} | {:.1} | {:.1} | {:.2} | {:.1} | {:.1} | {:.1} |",
        ways.name(),
        middle(|row| row.costs),
        middle(|row| row.arrivals),
        middle(|row| row.further[0]),
        middle(|row| row.planner),
        middle(|row| row.planner / row.further[0]),
        middle(|row| row.further[1]),
        middle(|row| row.further[2]),
        middle(|row| row.peer(0))
    );
}

/// Measures a sheet, with the search alone, the first journey and the last.
fn measured(folder: &Folder, sheet: &Sheet) -> Measured {
    let alone = diamonds::with_goal_at_start(sheet);
    let last = sheet.front.costs.len() as u32 - 1;
    let further = vec![alone.front_side(ROOM), sheet.journey_side(0), sheet.journey_side(last)];
    Measured::of(sheet, folder, &[MOSIPP], further)
}
