//! Damage that texts and groups share: to the order of lines, and to single numbers; damage to waits and closures, and to
//! months.

use crate::random::Random;

mod lines;
pub mod of_closures;
pub mod of_groups;
pub mod of_months;
pub mod of_text;
pub mod of_waits;

/// Numbers at or next to the ends of the ranges, and the first number of six digits.
const BOUNDARIES: [u32; 17] =
    [0, 1, 2, 63, 64, 65, 98, 99, 100, 255, 256, 59_999, 60_000, 60_001, 65_535, 99_999, 100_000];

/// What is done to the order of lines.
#[derive(Clone, Copy, Debug, PartialEq, Eq)]
pub enum OrderDamage {
    LineRemoved,
    LineDuplicated,
    LinesSwapped,
    LineMoved,
    LineAppended,
}

/// What is done to one number.
#[derive(Clone, Copy, Debug, PartialEq, Eq)]
pub enum NumberDamage {
    AtBoundary,
    Nudged,
    Copied,
}

/// Damages the order of the lines at one of them.
fn damage_order<T: Clone>(lines: &mut Vec<T>, at: usize, damage: OrderDamage, random: &mut Random) {
    match damage {
        OrderDamage::LineRemoved => {
            lines.remove(at);
        }
        OrderDamage::LineDuplicated => lines.insert(at, lines[at].clone()),
        OrderDamage::LinesSwapped => {
            let other = if random.percent(50) { (at + 1) % lines.len() } else { random.below(lines.len()) };
            lines.swap(at, other);
        }
        OrderDamage::LineMoved => {
            let line = lines.remove(at);
            let to = if random.percent(30) { lines.len() } else { random.below(lines.len() + 1) };
            lines.insert(to, line);
        }
        OrderDamage::LineAppended => lines.push(lines[at].clone()),
    }
}

/// What a number becomes, beside another of its line.
fn damaged_number(number: u32, beside: u32, damage: NumberDamage, random: &mut Random) -> u32 {
    match damage {
        NumberDamage::AtBoundary => random.pick(&BOUNDARIES),
        NumberDamage::Nudged if random.percent(50) => number.saturating_add(1),
        NumberDamage::Nudged => number.saturating_sub(1),
        NumberDamage::Copied => beside,
    }
}

/// A line to be damaged: often the first or the last.
fn random_line(random: &mut Random, count: usize) -> usize {
    match random.below(20) {
        0..6 => count - 1,
        6..9 => 0,
        _ => random.below(count),
    }
}
