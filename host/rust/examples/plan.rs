//! Plans a corridor sheet and prints what host/example.c prints: each front cost with its arrival step and the places
//! of its journey, one for each step; or in words why the sheet was refused. Usage: plan [FILE], without a file
//! standard input. Exit status: 0 served, 1 refused, 2 where the input cannot be read.

use planner::{Refusal, Room, front, journey};
use std::io::Read;
use std::process::ExitCode;
use std::{env, fs, io};

fn main() -> ExitCode {
    let text = match input() {
        Ok(text) => text,
        Err(error) => {
            eprintln!("plan: {error}");
            return ExitCode::from(2);
        }
    };
    match page(&text) {
        Ok(page) => {
            print!("{page}");
            ExitCode::SUCCESS
        }
        Err(refusal) => {
            println!("{refusal}{}", quoted(&text, refusal.line));
            ExitCode::FAILURE
        }
    }
}

/// The text of the file that is named, or of standard input.
fn input() -> io::Result<Vec<u8>> {
    if let Some(file) = env::args_os().nth(1) {
        return fs::read(file);
    }
    let mut text = Vec::new();
    io::stdin().read_to_end(&mut text)?;
    Ok(text)
}

/// What a sheet offers, in words.
fn page(text: &[u8]) -> Result<String, Refusal> {
    let front = front(text, Room::default())?;
    let mut page = format!("front costs: {}, leading arrivals: {}\n", front.costs.len(), front.arrivals.len());
    if front.costs.is_empty() {
        page += "no lawful journey exists\n";
    }
    for number in 0..front.costs.len() as u32 {
        page += &offer(text, number)?;
    }
    Ok(page)
}

/// The journey with a number in the front, in words.
fn offer(text: &[u8], number: u32) -> Result<String, Refusal> {
    let journey = journey(text, number, Room::default())?;
    let [charge, noise, doors] = journey.cost;
    let places: String = journey.places.iter().map(|place| format!(" {place}")).collect();
    let arrival = journey.arrival;
    let cost = format!("charge {charge}, noise {noise}, doors {doors}");
    Ok(format!("journey {number}: {cost}, arrival at step {arrival}\n    places{places}\n"))
}

/// The line at fault on a line of its own, a byte that may not be printable as \xHH; nothing where no line is.
fn quoted(text: &[u8], line: u32) -> String {
    let shown = |&byte: &u8| match byte {
        32..=126 => char::from(byte).to_string(),
        _ => format!("\\x{byte:02x}"),
    };
    let before = (line as usize).checked_sub(1);
    let bytes = before.and_then(|before| text.split(|&byte| byte == b'\n').nth(before));
    bytes.map_or(String::new(), |bytes| format!("\n    \"{}\"", bytes.iter().map(shown).collect::<String>()))
}
