//! Random sheets with few lawful ways, so that all of them can be listed.

use crate::answers::SheetRead;
use crate::closing::close;
use crate::damage::of_text::{TextDamage, damage_text};
use crate::families::FAMILIES;
use crate::family::Family;
use crate::groups::random_groups;
use crate::random::Random;
use crate::sheet::read_sheet;

/// The lawful ways of a small sheet have at most so many places in all.
const MOST_CELLS: u64 = 60_000;

/// The text of a random small sheet of a family, in most cases with closures, without which it is small too.
pub fn small_text(family: &Family, random: &mut Random) -> Vec<u8> {
    loop {
        let mut groups = family.groups(random);
        let read = read_sheet(&groups.text());
        assert_eq!(read.refusal, 0, "a family's sheets are in order and in range");
        if is_small(&read) {
            close(&mut groups, random);
            return groups.text();
        }
    }
}

/// The text of a random sheet, mostly a small one, damaged, and what was done to it; its lawful ways can be listed.
pub fn damaged_text(random: &mut Random) -> (Vec<u8>, Vec<TextDamage>) {
    loop {
        let family = &FAMILIES[random.below(FAMILIES.len())];
        let mut text = if random.percent(80) { small_text(family, random) } else { random_groups(random).text() };
        let done = damage_text(&mut text, random);
        if is_small(&read_sheet(&text)) {
            return (text, done);
        }
    }
}

/// Whether all lawful ways can be listed; a text that is refused has none.
pub fn is_small(read: &SheetRead) -> bool {
    let [places, steps, start, ..] = read.head;
    let mut counts = vec![0; places as usize];
    counts.iter_mut().skip(start as usize).take(1).for_each(|count| *count = 1);
    let mut cells = 0;
    for step in 0..=steps {
        if step > 0 {
            counts = one_step_more(read, step - 1, &counts);
        }
        strike_occupied(read, step, &mut counts);
        cells += counts.iter().sum::<u64>() * u64::from(step + 1);
        if cells > MOST_CELLS {
            return false;
        }
    }
    true
}

/// How many ways end at each place after one step more, from a step on, occupied or not.
fn one_step_more(read: &SheetRead, step: u32, counts: &[u64]) -> Vec<u64> {
    let mut more = counts.to_vec();
    let closures = read.closure_numbers().as_chunks::<3>().0;
    for &[from, to, ..] in read.corridor_numbers().as_chunks::<5>().0 {
        if !closures.contains(&[from, to, step]) {
            more[to as usize] += counts[from as usize];
        }
    }
    more
}

/// Strikes out the ways that end at a place occupied at the step.
fn strike_occupied(read: &SheetRead, step: u32, counts: &mut [u64]) {
    for &[place, first, last] in read.occupancy_numbers().as_chunks::<3>().0 {
        if (first..=last).contains(&step) {
            counts[place as usize] = 0;
        }
    }
}
