//! Times planner_front beside the strongest peers on sheets of all families of the peers' generator, checks that all
//! give the same costs and the same number of leading arrivals, prints a Markdown table and plots the ratios. Started with
//! what `Arguments` says.

use planner_bench::beside::{Measured, Sheet};
use planner_bench::peer::{MOSIPP, PULL, families};
use planner_bench::rounds::ROUNDS;
use planner_bench::{Arguments, median_of, plot, with_load};

/// The median ratios of a family: to mosipp and to the faster peer, both without reading, and to mosipp with reading.
struct Family {
    name: String,
    to_mosipp: f64,
    to_faster: f64,
    with_reading: f64,
}

impl Family {
    /// Whether the search takes so little that what a call needs at least decides; such a family has a goal of its own.
    fn is_tiny(&self) -> bool {
        self.name.starts_with("tiny")
    }
}

/// A goal: what it asks, of which ratio of a family, whether of the tiny families or of all others, and its limit.
struct Goal {
    asks: &'static str,
    ratio: fn(&Family) -> f64,
    of_tiny: bool,
    most: f64,
}

const GOALS: [Goal; 4] = [
    Goal { asks: "to mosipp without reading", ratio: |family| family.to_mosipp, of_tiny: false, most: 1.0 },
    Goal { asks: "to the faster peer without reading", ratio: |family| family.to_faster, of_tiny: false, most: 1.2 },
    Goal { asks: "to mosipp with reading", ratio: |family| family.with_reading, of_tiny: false, most: 1.1 },
    Goal {
        asks: "to mosipp without reading, of the tiny families",
        ratio: |family| family.to_mosipp,
        of_tiny: true,
        most: 3.0,
    },
];

/// The goal for the median of all families' ratios to mosipp without reading.
const MEDIAN_GOAL: f64 = 0.7;

fn main() {
    let arguments = Arguments::read();
    let mut rows = vec![];
    with_load(|| {
        print_heading(&arguments);
        rows = families().map(|name| print_family(&arguments, name)).collect();
        println!();
        print_goals(&rows);
        let sheets: usize = families().map(|name| arguments.seeds_of(&name).count()).sum();
        println!("All sides gave the same costs and the same number of arrivals on all {sheets} sheets.");
    });
    let ratios = |family: &Family| (family.name.clone(), [family.to_mosipp, family.to_faster]);
    let points: Vec<(String, [f64; 2])> = rows.iter().map(ratios).collect();
    plot::write(&arguments.plots, "ratio-by-family.svg", &plot::ratios(&points));
}

/// Prints what the table holds, and its heading.
fn print_heading(arguments: &Arguments) {
    println!(
        "Times in µs: planner_front from the sheet's bytes to the list, with room for twice the arrivals, and of it what
planner_read takes; mosipp --all --eager and pull --simd, whose times leave the reading out and whose memory grows. All
are given the same text. Ratios of the planner's time without reading to mosipp, to the faster of both peers on each
sheet, and of its whole time to mosipp. Medians over the seeds 1 to {} of a family, 1 to {} with a plus (waiting by place,
closures, a time to unload); for each sheet the least of the medians of {ROUNDS} rounds, or of fewer for a slow search.
",
        arguments.seeds_of("").end(),
        arguments.seeds_of("+").end()
    );
    print!("| family | arrivals | costs | planner | of it reading | mosipp | pull --simd ");
    println!("| ratio to mosipp: median | greatest | to the faster | to mosipp with reading |");
    println!("|---|{}", "---:|".repeat(10));
}

/// Measures a family and prints its row.
fn print_family(arguments: &Arguments, name: String) -> Family {
    let folder = &arguments.folder;
    let sheets = arguments.seeds_of(&name).map(|seed| Sheet::generated(folder, seed, &name, &[]));
    let rows: Vec<Measured> = sheets.map(|sheet| Measured::of(&sheet, folder, &[MOSIPP, PULL], vec![])).collect();
    let middle = |of: fn(&Measured) -> f64| median_of(&rows, of);
    let family = Family {
        name,
        to_mosipp: middle(|row| row.ratio(0)),
        to_faster: middle(|row| row.ratio(0).max(row.ratio(1))),
        with_reading: middle(|row| row.planner / row.peer(0)),
    };
    println!(
        "| {} | {:.0} | {:.0} | {:.1} | {:.1} | {:.1} | {:.1} | {:.2} | {:.2} | {:.2} | {:.2} |",
        family.name,
        middle(|row| row.arrivals),
        middle(|row| row.costs),
        middle(|row| row.planner),
        middle(|row| row.reading),
        middle(|row| row.peer(0)),
        middle(|row| row.peer(1)),
        family.to_mosipp,
        rows.iter().map(|row| row.ratio(0)).fold(0.0, f64::max),
        family.to_faster,
        family.with_reading
    );
    family
}

/// Prints the medians of the families' ratios, and for each goal how many families reach it, and those that do not.
fn print_goals(families: &[Family]) {
    println!(
        "Medians of the {} families' ratios: {:.2} to mosipp without reading (goal: at most {MEDIAN_GOAL}), {:.2} to the faster
peer without reading, {:.2} to mosipp with reading.",
        families.len(),
        median_of(families, |family| family.to_mosipp),
        median_of(families, |family| family.to_faster),
        median_of(families, |family| family.with_reading)
    );
    for Goal { asks, ratio, of_tiny, most } in GOALS {
        let asked: Vec<&Family> = families.iter().filter(|family| family.is_tiny() == of_tiny).collect();
        let above: Vec<&&Family> = asked.iter().filter(|family| ratio(family) > most).collect();
        let listed: Vec<String> = above.iter().map(|family| format!("{} {:.2}", family.name, ratio(family))).collect();
        let above_goal = if listed.is_empty() { String::new() } else { format!("; above it {}", listed.join(", ")) };
        println!(
            "- Ratio {asks}, at most {most:.1}: reached by {} of {} families{above_goal}.",
            asked.len() - above.len(),
            asked.len()
        );
    }
}
