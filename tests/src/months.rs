//! Random months: costs drawn in several ways, the remainder of a mean steered, and months that are one line too long.

use crate::damage::of_months::{FieldDamage, MonthDamage, damage_month, damaged};
use crate::month::{MOST_FIGURE, MOST_LINES};
use crate::page::line_of;
use crate::random::Random;

/// The greatest figure.
const MOST: u32 = MOST_FIGURE as u32;

/// The counts of lines that must come up.
pub const COUNTS: [&str; 8] =
    ["no line", "one line", "two to nine", "ten to 4,094", "4,095", "4,096", "4,097", "more than 4,097"];

/// How the figures of a month are drawn.
#[derive(Clone, Copy, Debug, PartialEq, Eq)]
pub enum Figures {
    /// 0 to 9.
    Small,
    /// At the ends of the range, or next to them.
    AtEnds,
    /// All of eight digits, so that each line has 29 bytes.
    Longest,
    /// Anywhere in the range.
    Any,
    /// The same on each line.
    Equal,
}

/// All ways to draw them.
pub const FIGURES: [Figures; 5] = [Figures::Small, Figures::AtEnds, Figures::Longest, Figures::Any, Figures::Equal];

/// What makes a line malformed.
const MALFORMED: [FieldDamage; 5] = [
    FieldDamage::LetterChanged,
    FieldDamage::Removed,
    FieldDamage::NineDigits,
    FieldDamage::LeadingZero,
    FieldDamage::ReturnAdded,
];

/// The text of a random month that is well-formed and in range, and how its figures are drawn; it may have too many lines.
pub fn random_month(random: &mut Random) -> (Vec<u8>, Figures) {
    let figures = random.pick(&FIGURES);
    let count = random_count(random);
    (text_of(&random_costs(figures, count, random)), figures)
}

/// The text of a random month, damaged, and what was done to it.
pub fn damaged_month(random: &mut Random) -> (Vec<u8>, Vec<MonthDamage>) {
    let (mut text, _) = random_month(random);
    let done = damage_month(&mut text, random);
    (text, done)
}

/// The text of a month with a line more than it may have, in order, above the range or malformed, and at times with others
/// after it.
pub fn month_beyond(random: &mut Random) -> Vec<u8> {
    let figures = random.pick(&FIGURES);
    let mut text = text_of(&random_costs(figures, MOST_LINES, random));
    let line = line_of('M', &random_costs(figures, 1, random)[0]);
    let line = match random.below(3) {
        0 => line,
        1 => damaged(&line, FieldDamage::AboveRange, random),
        _ => damaged(&line, random.pick(&MALFORMED), random),
    };
    text.extend(line.into_bytes());
    if random.percent(50) {
        text.extend(damaged_month(random).0);
    }
    text
}

/// A count of lines, mostly a small one.
fn random_count(random: &mut Random) -> usize {
    match random.below(100) {
        0..2 => 0,
        2..10 => 1,
        10..30 => 2,
        30..74 => random.from_to(3, 9) as usize,
        74..90 => random.from_to(10, 99) as usize,
        90..92 => MOST_LINES - 1,
        92..96 => MOST_LINES,
        96..98 => MOST_LINES + 1,
        _ => MOST_LINES + 2 + random.below(1_000),
    }
}

/// So many costs, the remainder of a figure's mean often steered.
fn random_costs(figures: Figures, count: usize, random: &mut Random) -> Vec<[u32; 3]> {
    if figures == Figures::Equal {
        return vec![[0; 3].map(|_| random_figure(Figures::Any, random)); count];
    }
    let mut costs: Vec<_> = (0..count).map(|_| [0; 3].map(|_| random_figure(figures, random))).collect();
    for at in 0..3 {
        if count > 0 && random.percent(60) {
            steer(&mut costs, at, random);
        }
    }
    costs
}

/// A figure.
fn random_figure(figures: Figures, random: &mut Random) -> u32 {
    match figures {
        Figures::Small => random.from_to(0, 9),
        Figures::AtEnds => random.pick(&[0, 1, MOST - 1, MOST]),
        Figures::Longest => random.from_to(10_000_000, MOST),
        Figures::Any | Figures::Equal => random.from_to(0, MOST),
    }
}

/// Changes one cost so that the total of the figure leaves a remainder at an end, at a half or next to one.
fn steer(costs: &mut [[u32; 3]], at: usize, random: &mut Random) {
    let count = costs.len() as u32;
    let total: u64 = costs.iter().map(|cost| u64::from(cost[at])).sum();
    let half = count / 2;
    let wanted = random.pick(&[0, 1, count - 1, (count - 1) / 2, half, half, half, count.div_ceil(2)]);
    let more = (wanted + count - (total % u64::from(count)) as u32) % count;
    let figure = &mut costs[random.below(count as usize)][at];
    *figure = if *figure + more <= MOST { *figure + more } else { *figure - (count - more) };
}

/// The lines of some costs.
fn text_of(costs: &[[u32; 3]]) -> Vec<u8> {
    costs.iter().map(|cost| line_of('M', cost)).collect::<String>().into_bytes()
}
