//! Damage to the closures of a sheet's text.

use super::lines::{line_of, lines_of, move_to, numbers_of, positions, text_of};
use crate::random::Random;

/// What is done to a closure; but for the last two its line stays well-formed.
#[derive(Clone, Copy, Debug, PartialEq, Eq)]
pub enum ClosureDamage {
    /// It names the other direction.
    Turned,
    /// It names another end.
    OtherEnd,
    /// It leads from a place to itself.
    ToItself,
    /// Its step is 256 or past it.
    StepBeyond,
    /// Its step is that of the line before, or one before it.
    NotAbove,
    /// It stands before the corridors, or amid them.
    BeforeCorridors,
    /// It stands after an occupancy.
    AfterOccupancy,
    /// It is the last of 257.
    OneTooMany,
    NumberMissing,
    NumberMore,
}

/// Damages a closure of a text that is not empty; where there is none, one of a corridor is put in, if there is one.
pub fn damage_closure(text: &mut Vec<u8>, damage: ClosureDamage, random: &mut Random) {
    let mut lines = lines_of(text);
    if let Some(at) = closure_in(&mut lines, random) {
        damage_at(&mut lines, at, damage, random);
        *text = text_of(&lines);
    }
}

/// The position of a closure, which is put in after the corridors where there is none.
fn closure_in(lines: &mut Vec<String>, random: &mut Random) -> Option<usize> {
    let closures = positions(lines, 'X');
    if !closures.is_empty() {
        return Some(random.pick(&closures));
    }
    let corridors = positions(lines, 'C');
    let corridor = numbers_of(&lines[*corridors.get(random.below(corridors.len().max(1)))?]);
    let after = corridors.last()? + 1;
    let [from, to] = [corridor.first()?, corridor.get(1)?];
    let closure = line_of('X', &[*from, *to, random.from_to(0, 9)]);
    lines.insert(after, closure);
    Some(after)
}

/// Damages the closure at a position.
fn damage_at(lines: &mut Vec<String>, at: usize, damage: ClosureDamage, random: &mut Random) {
    let &[from, to, step] = &numbers_of(&lines[at])[..] else { return };
    match damage {
        ClosureDamage::Turned => lines[at] = line_of('X', &[to, from, step]),
        ClosureDamage::OtherEnd => {
            lines[at] = line_of('X', &[from, random.pick(&[to + 1, to.saturating_sub(1)]), step])
        }
        ClosureDamage::ToItself => lines[at] = line_of('X', &[from, from, step]),
        ClosureDamage::StepBeyond => {
            lines[at] = line_of('X', &[from, to, random.pick(&[256, 256, 257, 511, 512, 65_535])])
        }
        ClosureDamage::NotAbove => {
            lines.insert(at + 1, line_of('X', &[from, to, step - random.from_to(0, step.min(1))]))
        }
        ClosureDamage::BeforeCorridors => move_to(lines, at, 'C', 0, random),
        ClosureDamage::AfterOccupancy => move_to(lines, at, 'O', 1, random),
        ClosureDamage::OneTooMany => fill_up(lines, at, [from, to, step]),
        ClosureDamage::NumberMissing => lines[at] = line_of('X', &[from, to]),
        ClosureDamage::NumberMore => lines[at] = line_of('X', &[from, to, step, random.from_to(0, 9)]),
    }
}

/// Puts closures of the same corridor before a line, at every step before its own, and after it, until there are 257.
fn fill_up(lines: &mut Vec<String>, at: usize, [from, to, step]: [u32; 3]) {
    let mut closures = (0..=255).filter(|&other| other != step);
    while positions(lines, 'X').len() < 257 {
        let Some(other) = closures.next() else { return lines.insert(at, line_of('X', &[from, to, 0])) };
        let below = closures_below(lines, [from, to, other]);
        let line = line_of('X', &[from, to, other]);
        if !lines.contains(&line) {
            lines.insert(below, line);
        }
    }
}

/// Where a closure has its place among the others.
fn closures_below(lines: &[String], closure: [u32; 3]) -> usize {
    let closures = positions(lines, 'X');
    let above = closures.iter().find(|&&at| numbers_of(&lines[at])[..] > closure[..]);
    above.copied().or(closures.last().map(|last| last + 1)).unwrap_or(lines.len())
}
