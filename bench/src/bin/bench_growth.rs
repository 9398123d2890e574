//! Times planner_front beside mosipp while T, the places, the occupancies, the closures or the front's costs grow, checks
//! that both give the same costs and the same number of leading arrivals, and prints Markdown tables and a plot of the
//! time by the front's costs. Started with what `Arguments` says.

use planner_bench::beside::{Measured, Sheet};
use planner_bench::diamonds::{self, Ways};
use planner_bench::peer::{Folder, MOSIPP};
use planner_bench::plot::{self, Curve};
use planner_bench::{Arguments, SEEDS, median_of, shown, with_load};
use std::ops::RangeInclusive;

/// The families: short figures with many equal sums, and figures up to 60,000.
const FAMILIES: [&str; 2] = ["ward", "bigdear"];

/// The numbers of diamonds, for 16 to 4,096 costs.
const DIAMONDS: [u32; 5] = [4, 6, 8, 10, 12];

/// Options of the generator with their values.
type Options = Vec<(&'static str, u32)>;

/// The sheets of a row: of a family with options of the generator, or of so many diamonds.
enum Size {
    Generated(String, Options),
    Diamonds(Ways, u32),
}

impl Size {
    /// The name of the sheets, whatever their size.
    fn name(&self) -> &str {
        match self {
            Size::Generated(family, _) => family,
            Size::Diamonds(ways, _) => ways.name(),
        }
    }

    fn sheet(&self, folder: &Folder, seed: u32) -> Sheet {
        match self {
            Size::Generated(family, options) => Sheet::generated(folder, seed, family, options),
            Size::Diamonds(ways, count) => diamonds::sheet(*ways, *count, seed),
        }
    }
}

/// What grows, and the sizes of the sheets of two names.
struct Growing {
    what: &'static str,
    sizes: [Vec<Size>; 2],
}

impl Growing {
    /// Sheets of both families, with a mark after their names, by the generator's options.
    fn of_families(what: &'static str, mark: &str, options: &[Options]) -> Growing {
        let size = |family, options: &Options| Size::Generated(format!("{family}{mark}"), options.clone());
        Growing { what, sizes: FAMILIES.map(|family| options.iter().map(|options| size(family, options)).collect()) }
    }
}

/// The medians of a row, times in microseconds without reading.
struct Row {
    costs: f64,
    search: f64,
    peer: f64,
}

fn main() {
    let arguments = Arguments::read();
    let seeds = arguments.seeds(SEEDS);
    with_load(|| {
        print_text(&seeds);
        for growing in generated() {
            print_table(&arguments.folder, &growing, &seeds);
        }
        let fronts = print_table(&arguments.folder, &fronts(), &seeds);
        let curves: Vec<Curve> = Ways::ALL.iter().zip(&fronts).flat_map(|(&ways, rows)| curves(ways, rows)).collect();
        plot::write(&arguments.plots, "time-by-front-costs.svg", &plot::times(&curves));
        println!("Both sides gave the same costs and the same number of arrivals on every sheet.");
    });
}

/// Prints what the tables hold.
fn print_text(seeds: &RangeInclusive<u32>) {
    println!(
        "Times in µs; mosipp --all --eager leaves the reading out. Ratio and search are of planner_front without reading, with
room for twice the arrivals. Where occupancies grow with T or with the places, there is one for a step, or four for a
place. Growth is the last row's time to the first row's, without reading. Medians over the seeds 1 to {}.
",
        seeds.end()
    );
}

/// What grows in sheets of the generator.
fn generated() -> [Growing; 5] {
    let of = |t, side, occupancies| vec![("--t", t), ("--side", side), ("--occ", occupancies)];
    let closed = |closures| vec![("--wait", 0), ("--x", closures)];
    let steps = [31, 63, 127, 255];
    [
        Growing::of_families("T", "", &steps.map(|t| of(t, 8, 32))),
        Growing::of_families("T and occupancies", "", &steps.map(|t| of(t, 8, t + 1))),
        Growing::of_families("places and occupancies", "", &[2, 4, 6, 8].map(|side| of(255, side, 4 * side * side))),
        Growing::of_families("occupancies", "", &[0, 32, 64, 128, 256].map(|occupancies| of(255, 8, occupancies))),
        Growing::of_families("closures", "+", &[0, 16, 64, 256].map(closed)),
    ]
}

/// The growth of the front.
fn fronts() -> Growing {
    let sizes = Ways::ALL.map(|ways| DIAMONDS.map(|count| Size::Diamonds(ways, count)).into());
    Growing { what: "costs of the front, by diamonds in a row", sizes }
}

/// Measures and prints sheets of two names while they grow, then the growth of each.
fn print_table(folder: &Folder, growing: &Growing, seeds: &RangeInclusive<u32>) -> [Vec<Row>; 2] {
    println!("What grows: {}.\n", growing.what);
    print!(
        "| sheets | T | places | occupancies | closures | arrivals | costs | planner | of it reading | mosipp | ratio "
    );
    println!("| search, ns per arrival |");
    println!("|---|{}", "---:|".repeat(11));
    let rows = growing.sizes.each_ref().map(|sizes| {
        let rows = sizes.iter().map(|size| print_size(folder, size, seeds.clone()));
        rows.collect::<Vec<Row>>()
    });
    println!();
    for (sizes, rows) in growing.sizes.iter().zip(&rows) {
        let growth = |time: fn(&Row) -> f64| time(&rows[rows.len() - 1]) / time(&rows[0]);
        let [planner, peer] = [growth(|row| row.search), growth(|row| row.peer)].map(shown);
        println!("- Growth of {}, from the first row to the last: planner {planner}, mosipp {peer}.", sizes[0].name());
    }
    println!();
    rows
}

/// Measures the sheets of a size and prints their row.
fn print_size(folder: &Folder, size: &Size, seeds: RangeInclusive<u32>) -> Row {
    let sheets: Vec<Sheet> = seeds.map(|seed| size.sheet(folder, seed)).collect();
    let rows: Vec<Measured> = sheets.iter().map(|sheet| Measured::of(sheet, folder, &[MOSIPP], vec![])).collect();
    let middle = |of: fn(&Measured) -> f64| median_of(&rows, of);
    let row = Row { costs: middle(|row| row.costs), search: middle(Measured::search), peer: middle(|row| row.peer(0)) };
    println!(
        "| {} | {:.0} | {:.0} | {:.0} | {:.0} | {:.0} | {:.0} | {:.1} | {:.1} | {:.1} | {:.2} | {:.0} |",
        size.name(),
        median_of(&sheets, Sheet::steps),
        median_of(&sheets, Sheet::places),
        median_of(&sheets, |sheet| sheet.lines('O')),
        median_of(&sheets, |sheet| sheet.lines('X')),
        middle(|row| row.arrivals),
        row.costs,
        middle(|row| row.planner),
        middle(|row| row.reading),
        row.peer,
        middle(|row| row.ratio(0)),
        middle(|row| 1_000.0 * row.search() / row.arrivals)
    );
    row
}

/// The curves of the planner and of mosipp on diamonds.
fn curves(ways: Ways, rows: &[Row]) -> [Curve; 2] {
    let curve = |kind, side: &str, time: fn(&Row) -> f64| Curve {
        name: format!("{side}, {}", ways.name()),
        kind,
        is_dashed: matches!(ways, Ways::Uneven),
        points: rows.iter().map(|row| (row.costs, time(row))).collect(),
    };
    [curve(0, "planner", |row| row.search), curve(1, "mosipp --all --eager", |row| row.peer)]
}
