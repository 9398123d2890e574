//! The planner's calls, and the page of a month, answered by copies of the references; build.rs puts a slip into one of them.

pub use slipped_month::page_of as month_page;
pub use slipped_sheet::{kind, read_sheet as read, write_sheet as write};
pub use slipped_step_by_step::{front, journey};

#[allow(unused)]
mod slipped_month {
    include!(concat!(env!("OUT_DIR"), "/month.rs"));
}

#[allow(unused)]
mod slipped_sheet {
    include!(concat!(env!("OUT_DIR"), "/sheet.rs"));
}

#[allow(unused)]
mod slipped_step_by_step {
    include!(concat!(env!("OUT_DIR"), "/step_by_step.rs"));
}
