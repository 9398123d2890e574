//! Under the feature `stub`, makes the copies of the references that answer for the planner.

use std::env;
use std::fs;
use std::path::{Path, PathBuf};

/// The references: each is a file in src/, with its slips in slips/.
const REFERENCES: [&str; 3] = ["month", "sheet", "step_by_step"];

fn main() {
    if env::var("CARGO_FEATURE_STUB").is_ok() {
        let here = PathBuf::from(env::var("CARGO_MANIFEST_DIR").expect("cargo sets CARGO_MANIFEST_DIR"));
        write_slipped_copies(&here);
    }
}

/// Writes the references to OUT_DIR, one of them with the slip that SLIP names.
fn write_slipped_copies(here: &Path) {
    println!("cargo::rerun-if-env-changed=SLIP");
    let slip = env::var("SLIP").ok();
    let edits: Vec<usize> = REFERENCES.iter().map(|name| write_slipped_copy(here, name, slip.as_deref())).collect();
    assert_eq!(edits.iter().any(|&count| count > 0), slip.is_some(), "no file of slips has {slip:?}");
}

/// Writes a reference to OUT_DIR with the slip, if its file of slips has it; hands back the count of edits.
fn write_slipped_copy(here: &Path, name: &str, slip: Option<&str>) -> usize {
    let [source, slips] = [format!("src/{name}.rs"), format!("slips/{name}.txt")].map(|file| here.join(file));
    println!("cargo::rerun-if-changed={}", source.display());
    println!("cargo::rerun-if-changed={}", slips.display());
    let [mut code, slips] = [source, slips].map(|file| fs::read_to_string(file).expect("the file is readable"));
    let edits = slip.map_or(vec![], |slip| edits_of(&slips, slip));
    for (old, new) in &edits {
        assert_eq!(code.matches(old).count(), 1, "the slip {slip:?} does not fit src/{name}.rs at {old:?}");
        code = code.replace(old, new);
    }
    let out = PathBuf::from(env::var("OUT_DIR").expect("cargo sets OUT_DIR"));
    fs::write(out.join(format!("{name}.rs")), code).expect("OUT_DIR is writable");
    edits.len()
}

/// The edits of a slip: what stands in the reference, and what is put in its place; none if the slips are others.
fn edits_of(slips: &str, name: &str) -> Vec<(String, String)> {
    let title = format!("= {name}");
    let lines: Vec<&str> =
        slips.lines().skip_while(|line| *line != title).skip(1).take_while(|line| !line.starts_with('=')).collect();
    lines.chunks(2).map(|pair| (marked(pair[0], "- "), marked(pair[1], "+ "))).collect()
}

/// What a line of slips has after its mark.
fn marked(line: &str, mark: &str) -> String {
    line.strip_prefix(mark).unwrap_or_else(|| panic!("slips: {line:?} does not begin with {mark:?}")).to_string()
}
