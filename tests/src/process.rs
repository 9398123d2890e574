//! The programs of target/bin, run as processes; under the feature `stub` a copy of the reference answers for month_page.

use std::io::{self, ErrorKind, Write};
use std::process::{Command, Stdio};

/// The folder of the programs.
const PROGRAMS: &str = concat!(env!("CARGO_MANIFEST_DIR"), "/../target/bin");

/// An input that is longer is shown without its middle.
const MOST_SHOWN: usize = 20_000;

/// What a program prints for an input.
type Program = fn(&[u8]) -> io::Result<Vec<u8>>;

/// The page that plan prints for a sheet.
pub fn plan(sheet: &[u8]) -> io::Result<Vec<u8>> {
    printed_for("plan", sheet)
}

/// The page that month_page prints for a month.
#[cfg(not(feature = "stub"))]
pub fn month_page(month: &[u8]) -> io::Result<Vec<u8>> {
    printed_for("month_page", month)
}

/// The page that a copy of the reference has for a month.
#[cfg(feature = "stub")]
pub fn month_page(month: &[u8]) -> io::Result<Vec<u8>> {
    Ok(crate::planner::month_page(month).into_bytes())
}

/// Holds the page that a program prints for an input to the one expected; a report of the difference.
pub fn compare_page(program: Program, input: &[u8], expected: &str) -> Result<(), String> {
    let printed = program(input).map_err(|error| format!("the program in {PROGRAMS}: {error}"))?;
    if printed == expected.as_bytes() {
        return Ok(());
    }
    let (bytes, input, printed) = (input.len(), shown(input), printed.escape_ascii());
    Err(format!("the pages differ\n  {bytes} bytes {input}\n  printed  \"{printed}\"\n  expected {expected:?}"))
}

/// What a program prints for an input; it need not take all of it.
fn printed_for(program: &str, input: &[u8]) -> io::Result<Vec<u8>> {
    let mut command = Command::new(format!("{PROGRAMS}/{program}"));
    let mut process = command.stdin(Stdio::piped()).stdout(Stdio::piped()).spawn()?;
    let written = process.stdin.take().expect("standard input is piped").write_all(input);
    written.or_else(|error| if error.kind() == ErrorKind::BrokenPipe { Ok(()) } else { Err(error) })?;
    let output = process.wait_with_output()?;
    if output.status.success() { Ok(output.stdout) } else { Err(io::Error::other(output.status.to_string())) }
}

/// An input as it is shown in a report.
fn shown(input: &[u8]) -> String {
    if input.len() <= MOST_SHOWN {
        return format!("\"{}\"", input.escape_ascii());
    }
    let [first, last] = [&input[..MOST_SHOWN / 2], &input[input.len() - MOST_SHOWN / 2..]];
    format!("\"{}\" ... \"{}\"", first.escape_ascii(), last.escape_ascii())
}
