//! Links the planner's archive.

use std::env;
use std::path::PathBuf;

/// Has libplanner.a linked, as `rt lib` leaves it in crates/planner.
fn main() {
    let here = PathBuf::from(env::var("CARGO_MANIFEST_DIR").expect("cargo sets CARGO_MANIFEST_DIR"));
    let folder = here.join("../../crates/planner/out");
    let archive = folder.join("libplanner.a");
    println!("cargo::rerun-if-changed={}", archive.display());
    assert!(
        archive.exists(),
        "{} is not there: run `rt lib` in crates/planner",
        archive.display()
    );
    println!("cargo::rustc-link-search=native={}", folder.display());
    println!("cargo::rustc-link-lib=static=planner");
}
