//! Tests of the planner from Rust: references written from documents 01 and 02 alone, and random inputs for them and for the
//! planner's calls.

pub mod cases;
pub mod closing;
pub mod closures;
pub mod compare;
pub mod compare_search;
pub mod damage;
pub mod families;
pub mod family;
pub mod groups;
pub mod layers;
pub mod lent;
pub mod month;
pub mod months;
pub mod page;
#[cfg(feature = "stub")]
#[path = "stub.rs"]
pub mod planner;
pub mod process;
pub mod program;
pub mod random;
pub mod sheet;
pub mod small;
pub mod step_by_step;
pub mod ties;
pub mod unloading;
pub mod waits;

pub use ::planner::calls as answers;
#[cfg(not(feature = "stub"))]
pub use ::planner::calls as planner;
