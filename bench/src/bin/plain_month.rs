//! The page of a month in plain Rust, for `bench_month`: the same task and the same checks as month_page, in one pass over the
//! bytes of standard input.

use std::io::{self, Read, Write};

const MOST_LINES: u64 = 4_096;
const MOST_FIGURE: u32 = 15_300_000;
const MOST_DIGITS: usize = 8;

/// What is known of a figure so far.
#[derive(Clone, Copy)]
struct Figure {
    total: u64,
    least: u32,
    greatest: u32,
}

impl Figure {
    const NONE: Figure = Figure { total: 0, least: u32::MAX, greatest: 0 };

    /// The same with one value more.
    fn and(self, value: u32) -> Figure {
        Figure {
            total: self.total + u64::from(value),
            least: self.least.min(value),
            greatest: self.greatest.max(value),
        }
    }
}

fn main() -> io::Result<()> {
    let mut month = Vec::new();
    io::stdin().read_to_end(&mut month)?;
    io::stdout().write_all(page_of(&month).as_bytes())
}

/// The page of a month.
fn page_of(month: &[u8]) -> String {
    let (lines, figures) = match figures_of(month) {
        Ok(found) => found,
        Err((refusal, line)) => return format!("R,{refusal},{line}\n"),
    };
    let line = |(number, Figure { total, least, greatest }): (usize, Figure)| {
        let mean = (total as f64 / lines as f64).round_ties_even();
        format!("A,{},{total},{least},{greatest},{mean}\n", number + 1)
    };
    figures.into_iter().enumerate().map(line).collect()
}

/// The count of lines and the three figures, or the refusal and its line.
fn figures_of(month: &[u8]) -> Result<(u64, [Figure; 3]), (u32, u64)> {
    let mut figures = [Figure::NONE; 3];
    let (mut rest, mut lines) = (month, 0);
    while !rest.is_empty() {
        lines += 1;
        let (cost, after) = line_of(rest).ok_or((2, lines))?;
        if cost.iter().any(|&figure| figure > MOST_FIGURE) {
            return Err((4, lines));
        }
        if lines > MOST_LINES {
            return Err((14, lines));
        }
        for (figure, value) in figures.iter_mut().zip(cost) {
            *figure = figure.and(value);
        }
        rest = after;
    }
    if lines == 0 { Err((14, 0)) } else { Ok((lines, figures)) }
}

/// The cost on the first line, and what follows it, if the line is well-formed.
fn line_of(text: &[u8]) -> Option<([u32; 3], &[u8])> {
    let (a, rest) = number_of(text.strip_prefix(b"M,")?, b',')?;
    let (b, rest) = number_of(rest, b',')?;
    let (c, rest) = number_of(rest, b'\n')?;
    Some(([a, b, c], rest))
}

/// The number before a byte, and what follows the byte, if the number is well-formed.
fn number_of(text: &[u8], end: u8) -> Option<(u32, &[u8])> {
    let digits = text.iter().take(MOST_DIGITS + 1).take_while(|byte| byte.is_ascii_digit()).count();
    if digits == 0 || digits > MOST_DIGITS || (digits > 1 && text[0] == b'0') || text.get(digits) != Some(&end) {
        return None;
    }
    let value = text[..digits].iter().fold(0, |value, digit| 10 * value + u32::from(digit - b'0'));
    Some((value, &text[digits + 1..]))
}
