//! Random sheets with long pages, or with more on the front or in the arrivals table than the program has room for.
//!
//! The places stand in layers, each crossed in one step from any place of the one before. The choice in a layer moves
//! some of the cost from one figure to another, so that no journey's cost dominates another's. A place is occupied at
//! all steps but one, so that there is one way for each choice, and all can be listed; the goal is free afterwards too,
//! for unloading, where a cart may wait.

use crate::groups::{Groups, equal_waits};
use crate::random::Random;
use std::collections::BTreeSet;

/// The layers of a sheet have so many choices in all, at least and at most: near 200, or near 1,000.
const CHOICES: [[usize; 2]; 2] = [[100, 300], [700, 1_500]];

/// A layer has at most so many places.
const WIDEST: u32 = 5;

/// The text of a random sheet of layers.
pub fn layered_text(random: &mut Random) -> Vec<u8> {
    let widths = random_widths(random);
    let places = widths.iter().sum();
    let unloading = random.pick(&[0, 0, 1, 2]);
    let head = vec![places, widths.len() as u32 - 1 + unloading, 0, places - 1, unloading];
    let waits = equal_waits(places, [1; 3]);
    let (corridors, occupancies) = (corridors_of(&widths), occupancies_of(&widths));
    let closures = closures_of(&corridors, random);
    Groups { head, waits, corridors, closures, occupancies }.text()
}

/// The count of places in each layer: one in the first, the start, and one in the last, the goal.
fn random_widths(random: &mut Random) -> Vec<u32> {
    let [least, most] = random.pick(&CHOICES);
    loop {
        let mut widths = vec![1];
        while choices(&widths) < least {
            widths.push(random.from_to(2, WIDEST));
        }
        if choices(&widths) <= most {
            widths.push(1);
            return widths;
        }
    }
}

/// How many ways go through some layers.
fn choices(widths: &[u32]) -> usize {
    widths.iter().map(|&width| width as usize).product()
}

/// The corridors from each place to all of the next layer; the sum of the first two figures is that of the layer.
fn corridors_of(widths: &[u32]) -> Vec<u32> {
    let mut corridors = Vec::new();
    let mut first = 0;
    for layer in 1..widths.len() {
        let [width, next] = [widths[layer - 1], widths[layer]];
        let weight = choices(&widths[..layer]) as u32;
        for from in first..first + width {
            for choice in 0..next {
                corridors.extend([from, first + width + choice, choice * weight, (next - 1 - choice) * weight, 0]);
            }
        }
        first += width;
    }
    corridors
}

/// None in half of the cases, else closures of some corridors at an early step, at which one in some of them is crossed.
fn closures_of(corridors: &[u32], random: &mut Random) -> Vec<u32> {
    let (corridors, _) = corridors.as_chunks::<5>();
    let count = random.pick(&[0, 0, 0, 1, 4, 12]);
    let closure = |[from, to, ..]: [u32; 5], step| [from, to, step];
    let closures: BTreeSet<[u32; 3]> =
        (0..count).map(|_| closure(random.pick(corridors), random.from_to(0, 5))).collect();
    closures.into_iter().flatten().collect()
}

/// The occupancies that leave each place free at the step of its layer alone, and the goal from that of the last on.
fn occupancies_of(widths: &[u32]) -> Vec<u32> {
    let mut occupancies = Vec::new();
    let mut place = 0;
    for (step, &width) in (0..).zip(widths) {
        for _ in 0..width {
            if step > 0 {
                occupancies.extend([place, 0, step - 1]);
            }
            if step + 1 < widths.len() as u32 {
                occupancies.extend([place, step + 1, 255]);
            }
            place += 1;
        }
    }
    occupancies
}
