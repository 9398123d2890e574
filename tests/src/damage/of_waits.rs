//! Damage to the waits of a sheet's text.

use super::lines::{line_of, lines_of, move_to, numbers_of, positions, text_of};
use crate::random::Random;

/// What is done to the waits; but for the last three the lines stay well-formed.
#[derive(Clone, Copy, Debug, PartialEq, Eq)]
pub enum WaitDamage {
    FirstMissing,
    /// One of them is missing, mostly neither the first nor the last.
    OneMissing,
    LastMissing,
    /// The text ends before one of them.
    Cut,
    Doubled,
    /// One has changed places with the next.
    Swapped,
    /// The place after the last has one too.
    OneTooMany,
    /// It stands before the S line.
    BeforeHead,
    /// It stands after a corridor.
    AfterCorridor,
    /// It names a place that is not on the sheet, or another one.
    OtherPlace,
    /// A figure is 60,001 or past it.
    CostBeyond,
    NumberMissing,
    NumberMore,
    /// The S line is one of seven or eight numbers, with a waiting cost.
    HeadWithCost,
}

/// Damages the waits of a text, if it has any.
pub fn damage_waits(text: &mut Vec<u8>, damage: WaitDamage, random: &mut Random) {
    let mut lines = lines_of(text);
    let waits = positions(&lines, 'W');
    if waits.is_empty() {
        return;
    }
    let at = match damage {
        WaitDamage::FirstMissing => waits[0],
        WaitDamage::LastMissing | WaitDamage::OneTooMany => waits[waits.len() - 1],
        _ => random.pick(&waits),
    };
    damage_at(&mut lines, at, damage, random);
    *text = text_of(&lines);
}

/// Damages the wait at a position.
fn damage_at(lines: &mut Vec<String>, at: usize, damage: WaitDamage, random: &mut Random) {
    let &[place, a, b, c] = &numbers_of(&lines[at])[..] else { return };
    match damage {
        WaitDamage::FirstMissing | WaitDamage::OneMissing | WaitDamage::LastMissing => {
            lines.remove(at);
        }
        WaitDamage::Cut => lines.truncate(at),
        WaitDamage::Doubled => lines.insert(at, lines[at].clone()),
        WaitDamage::Swapped => {
            let next = (at + 1) % lines.len();
            lines.swap(at, next);
        }
        WaitDamage::OneTooMany => lines.insert(at + 1, line_of('W', &[place + 1, a, b, c])),
        WaitDamage::BeforeHead => move_to(lines, at, 'S', 0, random),
        WaitDamage::AfterCorridor => move_to(lines, at, 'C', 1, random),
        WaitDamage::OtherPlace => {
            let others = [place + 1, place.saturating_sub(1), 64, 65, 255, 60_001];
            lines[at] = line_of('W', &[random.pick(&others), a, b, c]);
        }
        WaitDamage::CostBeyond => lines[at] = line_of('W', &with_beyond([place, a, b, c], random)),
        WaitDamage::NumberMissing => lines[at] = line_of('W', &[place, a, b]),
        WaitDamage::NumberMore => lines[at] = line_of('W', &[place, a, b, c, random.from_to(0, 9)]),
        WaitDamage::HeadWithCost => give_head_cost(lines, [a, b, c], random),
    }
}

/// The numbers of a wait with a figure out of range.
fn with_beyond(mut numbers: [u32; 4], random: &mut Random) -> [u32; 4] {
    numbers[random.from_to(1, 3) as usize] = random.pick(&[60_001, 60_001, 60_002, 65_535, 65_536, 99_999]);
    numbers
}

/// Puts a waiting cost on the first S line, without or with a time to unload after it; in half of the cases the W lines go.
fn give_head_cost(lines: &mut Vec<String>, [a, b, c]: [u32; 3], random: &mut Random) {
    let Some(&at) = positions(lines, 'S').first() else { return };
    let &[places, steps, start, goal, unloading] = &numbers_of(&lines[at])[..] else { return };
    let numbers = [places, steps, start, goal, a, b, c, unloading];
    lines[at] = line_of('S', &numbers[..random.pick(&[7, 8])]);
    if random.percent(50) {
        lines.retain(|line| !line.starts_with('W'));
    }
}
