//! Times planner_read and planner_write beside the plain Rust reader and writer of tests/src/sheet.rs, and
//! prints a Markdown table. An answer is handed back by value; the writer's buffer is not cleared between calls.

use planner_bench::{Times, times};
use planner_tests::groups::{Groups, equal_waits, longest_groups};
use planner_tests::{planner, sheet};
use std::hint::black_box;

fn main() {
    println!("| call | input | bytes | planner, ns | plain Rust, ns | ratio |");
    println!("|---|---|---:|---:|---:|---:|");
    for (name, text) in texts() {
        print_row("read", name, text.len(), &reading_times(&text));
    }
    for (name, groups) in [("sheet A", sheet_a()), ("the longest sheet", longest_groups())] {
        print_row("write", name, groups.text().len(), &writing_times(&groups));
    }
    println!();
    println!("Medians, side by side in one run. The goal is a ratio of at most 3.");
}

/// The texts that are read, each with its name.
fn texts() -> Vec<(&'static str, Vec<u8>)> {
    let longest = longest_groups();
    let closures = Groups { occupancies: vec![], ..longest.clone() };
    let corridors = Groups { closures: vec![], ..closures.clone() };
    let occupancies = Groups { corridors: vec![], closures: vec![], ..longest.clone() };
    let waits = Groups { corridors: vec![], ..corridors.clone() };
    vec![
        ("sheet A", sheet_a().text()),
        ("the longest sheet", longest.text()),
        ("its waits alone", waits.text()),
        ("its waits and corridors", corridors.text()),
        ("its waits, corridors and closures", closures.text()),
        ("its waits and occupancies", occupancies.text()),
        ("its last line twice: 5", longest_with_last_line_twice()),
        ("16,385 bytes: 1", vec![b'\n'; 16_385]),
    ]
}

/// Document 01's sheet A.
fn sheet_a() -> Groups {
    Groups {
        head: vec![4, 6, 0, 3, 0],
        waits: equal_waits(4, [1, 0, 0]),
        corridors: vec![0, 1, 1, 0, 4, 0, 2, 1, 3, 0, 1, 3, 1, 0, 4, 2, 3, 1, 3, 0],
        closures: vec![],
        occupancies: vec![1, 1, 2],
    }
}

/// The longest sheet, but with its last occupancy in the place of the one before too.
fn longest_with_last_line_twice() -> Vec<u8> {
    let mut groups = longest_groups();
    let len = groups.occupancies.len();
    groups.occupancies.copy_within(len - 3.., len - 6);
    groups.text()
}

/// The times of reading a text, once both answers agree.
fn reading_times(text: &[u8]) -> Times {
    assert!(planner::read(text) == sheet::read_sheet(text), "the readers differ: run tests/run");
    times(|| planner::read(black_box(text)), || sheet::read_sheet(black_box(text)))
}

/// The times of writing groups to a buffer as long as their text, once both answers agree.
fn writing_times(groups: &Groups) -> Times {
    let text = groups.text();
    let [mut out, mut plain_out] = [vec![0; text.len()], vec![0; text.len()]];
    let mut planner_write = || {
        let [head, waits, corridors, closures, occupancies] = black_box(groups).all();
        planner::write(head, waits, corridors, closures, occupancies, &mut out)
    };
    let mut plain_write = || {
        let [head, waits, corridors, closures, occupancies] = black_box(groups).all();
        sheet::write_sheet(head, waits, corridors, closures, occupancies, &mut plain_out)
    };
    assert_eq!(planner_write(), plain_write(), "the writers differ: run tests/run");
    let times = times(planner_write, plain_write);
    assert!(out == text && plain_out == text, "a writer wrote another text: run tests/run");
    times
}

/// Prints a row of the table.
fn print_row(call: &str, input: &str, bytes: usize, times: &Times) {
    println!(
        "| {call} | {input} | {bytes} | {:.0} | {:.0} | {:.2} |",
        times.planner,
        times.plain,
        times.planner / times.plain
    );
}
