//! Damage to the groups lent to the writer.

use super::{NumberDamage, OrderDamage, damage_order, damaged_number, random_line};
use crate::groups::{Groups, LINES};
use crate::random::Random;

/// Numbers that a sheet's five digits cannot say: only a host program lends them.
const BEYOND: [u32; 7] = [100_000, 65_536, 65_537, 1 << 24, 1 << 31, u32::MAX - 1, u32::MAX];

/// What is done to groups.
#[derive(Clone, Copy, Debug, PartialEq, Eq)]
pub enum GroupDamage {
    Order(OrderDamage),
    Number(NumberDamage),
    NumberBeyond,
    /// The lines from one on are missing, in its group and in those after it.
    Cut,
    NumberAdded,
    NumberRemoved,
    GroupEmptied,
    /// The first group has seven or eight numbers, with a waiting cost.
    HeadWithCost,
}

/// Every kind of damage to groups: first to numbers, then to the order of lines, then to the lengths.
pub const GROUP_DAMAGES: [GroupDamage; 14] = [
    GroupDamage::Number(NumberDamage::AtBoundary),
    GroupDamage::Number(NumberDamage::Nudged),
    GroupDamage::Number(NumberDamage::Copied),
    GroupDamage::NumberBeyond,
    GroupDamage::Order(OrderDamage::LineRemoved),
    GroupDamage::Order(OrderDamage::LineDuplicated),
    GroupDamage::Order(OrderDamage::LinesSwapped),
    GroupDamage::Order(OrderDamage::LineMoved),
    GroupDamage::Order(OrderDamage::LineAppended),
    GroupDamage::Cut,
    GroupDamage::NumberAdded,
    GroupDamage::NumberRemoved,
    GroupDamage::GroupEmptied,
    GroupDamage::HeadWithCost,
];

/// So many kinds are drawn from: to numbers alone, to whole lines alone, or all.
const KINDS: [usize; 3] = [4, 10, 14];

/// Damages groups one to three times, in half of the cases at one and the same line; hands back what was done.
pub fn damage_groups(groups: &mut Groups, random: &mut Random) -> Vec<GroupDamage> {
    let count = 1 + random.below(3);
    let kinds = &GROUP_DAMAGES[..random.pick(&KINDS)];
    let at_one_line = random.percent(50);
    let mut kind = random.below(LINES.len());
    let mut at = None;
    let mut done = Vec::new();
    for _ in 0..count {
        let damage = random.pick(kinds);
        let (group, width) = group_of(groups, kind);
        if !group.is_empty() {
            let lines = group.len().div_ceil(width);
            let line = at.unwrap_or_else(|| random_line(random, lines)).min(lines - 1);
            damage_group(groups, kind, line, damage, random);
            done.push(damage);
            at = at_one_line.then_some(line);
        }
        if !at_one_line {
            kind = random.below(LINES.len());
        }
    }
    done
}

/// Removes the lines of a group from one on, and all later groups.
fn cut(groups: &mut Groups, kind: usize, line: usize) {
    let (group, width) = group_of(groups, kind);
    group.truncate(line * width);
    (kind + 1..LINES.len()).for_each(|later| group_of(groups, later).0.clear());
}

/// Puts a waiting cost into the first group, if it is one of five numbers, without or with a time to unload after it; in half
/// of the cases the waits go.
fn give_head_cost(groups: &mut Groups, random: &mut Random) {
    let &[places, steps, start, goal, unloading] = &groups.head[..] else { return };
    let numbers = [places, steps, start, goal, 1, 0, 0, unloading];
    groups.head = numbers[..random.pick(&[7, 8])].to_vec();
    if random.percent(50) {
        groups.waits.clear();
    }
}

/// The group of a kind, and the count of numbers on its lines.
fn group_of(groups: &mut Groups, kind: usize) -> (&mut Vec<u32>, usize) {
    match kind {
        0 => (&mut groups.head, 5),
        1 => (&mut groups.waits, 4),
        2 => (&mut groups.corridors, 5),
        3 => (&mut groups.closures, 3),
        _ => (&mut groups.occupancies, 3),
    }
}

/// Damages a group that is not empty at one of its lines.
fn damage_group(groups: &mut Groups, kind: usize, line: usize, damage: GroupDamage, random: &mut Random) {
    let (group, width) = group_of(groups, kind);
    let first = line * width;
    let last = group.len().min(first + width) - 1;
    let at = random.from_to(first as u32, last as u32) as usize;
    match damage {
        GroupDamage::Order(damage) => {
            let mut lines: Vec<&[u32]> = group.chunks(width).collect();
            damage_order(&mut lines, line, damage, random);
            *group = lines.concat();
        }
        GroupDamage::Number(damage) => {
            let beside = if at > first { at - 1 } else { last.min(at + 1) };
            group[at] = damaged_number(group[at], group[beside], damage, random);
        }
        GroupDamage::NumberBeyond => group[at] = random.pick(&BEYOND),
        GroupDamage::NumberAdded => group.insert(at, random.pick(&[0, 1, 60_001])),
        GroupDamage::NumberRemoved => {
            group.remove(at);
        }
        GroupDamage::GroupEmptied => group.clear(),
        GroupDamage::Cut => cut(groups, kind, line),
        GroupDamage::HeadWithCost => give_head_cost(groups, random),
    }
}
