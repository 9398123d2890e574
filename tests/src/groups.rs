//! The five groups of a sheet's numbers: random ones, and the longest ones.

use crate::answers::SheetRead;
use crate::random::Random;
use std::collections::BTreeSet;

/// The numbers of a sheet's lines, kind by kind.
#[derive(Clone, Debug, Default, PartialEq, Eq)]
pub struct Groups {
    pub head: Vec<u32>,
    pub waits: Vec<u32>,
    pub corridors: Vec<u32>,
    pub closures: Vec<u32>,
    pub occupancies: Vec<u32>,
}

/// The letter of each group's lines, in the order of a sheet, and the count of numbers on a line.
pub const LINES: [(char, usize); 5] = [('S', 5), ('W', 4), ('C', 5), ('X', 3), ('O', 3)];

impl Groups {
    /// The groups that a reader handed back.
    pub fn of(read: &SheetRead) -> Groups {
        let [waits, corridors, closures, occupancies] =
            [read.wait_numbers(), read.corridor_numbers(), read.closure_numbers(), read.occupancy_numbers()]
                .map(<[u32]>::to_vec);
        Groups { head: read.head.to_vec(), waits, corridors, closures, occupancies }
    }

    /// The groups, in the order of a sheet.
    pub fn all(&self) -> [&[u32]; 5] {
        [&self.head, &self.waits, &self.corridors, &self.closures, &self.occupancies]
    }

    /// The sheet's text, whatever the numbers are.
    pub fn text(&self) -> Vec<u8> {
        let mut text = String::new();
        for ((letter, width), group) in LINES.into_iter().zip(self.all()) {
            for numbers in group.chunks(width) {
                text.push(letter);
                numbers.iter().for_each(|number| text.push_str(&format!(",{number}")));
                text.push('\n');
            }
        }
        text.into_bytes()
    }
}

/// The waits of the first places in ascending order, each of (1,0,0).
pub fn ascending_waits(count: u32) -> Vec<u32> {
    equal_waits(count, [1, 0, 0])
}

/// The waits of so many places, all of one cost.
pub fn equal_waits(places: u32, [a, b, c]: [u32; 3]) -> Vec<u32> {
    (0..places).flat_map(|place| [place, a, b, c]).collect()
}

/// The first corridors of 64 places in ascending order, all free.
pub fn ascending_corridors(count: u32) -> Vec<u32> {
    (0..count).flat_map(|i| [i / 63, i % 63 + u32::from(i % 63 >= i / 63), 0, 0, 0]).collect()
}

/// The first closures of the first of these corridors in ascending order, each corridor closed at steps 0 to 31.
pub fn ascending_closures(count: u32) -> Vec<u32> {
    let corridors = ascending_corridors(count.div_ceil(32));
    (0..count as usize).flat_map(|i| [corridors[i / 32 * 5], corridors[i / 32 * 5 + 1], i as u32 % 32]).collect()
}

/// Occupancies of up to 64 places in ascending order, which begin at steps 0 to 3.
pub fn ascending_occupancies(count: u32) -> Vec<u32> {
    (0..count).flat_map(|i| [i / 16, i % 16 / 4, i % 16 + 1]).collect()
}

/// The longest sheet: all lines, and in each place a number with the most digits.
pub fn longest_groups() -> Groups {
    Groups {
        head: vec![64, 255, 63, 62, 99],
        waits: (0..64).flat_map(|i| [i, 60_000, 59_999 - i, 12_345]).collect(),
        corridors: (0..256).flat_map(|i| [10 + i / 32, 20 + i % 32, 60_000, 10_000 + 7 * i, 54_321]).collect(),
        closures: (0..256).flat_map(|i| [10 + i / 32, 20 + i % 32, 100 + i % 156]).collect(),
        occupancies: (0..256).flat_map(|i| [10 + i / 8, 100 + i % 8, 255 - i % 8]).collect(),
    }
}

/// Random groups that are in order and in range, now and then with a 257th line of a kind, in order or with any numbers,
/// with a late occupancy or with a closure of no corridor.
pub fn random_groups(random: &mut Random) -> Groups {
    if random.percent(3) {
        return longest_groups();
    }
    let places = match random.below(3) {
        0 => random.pick(&[1, 2, 63, 64]),
        1 => random.from_to(1, 64),
        _ => random.from_to(2, 12),
    };
    let head = random_head(random, places);
    let waits = random_waits(random, places);
    let corridors = random_corridors(random, places);
    let closures = random_closures(random, &corridors, head[1]);
    let occupancies = random_occupancies(random, places, head[1]);
    let mut groups = Groups { head, waits, corridors, closures, occupancies };
    if random.percent(35) {
        overfill(&mut groups, random);
    }
    groups
}

/// Adds a line with any numbers to each group that has 256 lines.
fn overfill(groups: &mut Groups, random: &mut Random) {
    let places = groups.head[0];
    let any = [0, 1, places - 1, places - 1, places, 255, 256, 60_001];
    for (group, width) in [(&mut groups.corridors, 5), (&mut groups.closures, 3), (&mut groups.occupancies, 3)] {
        if group.len() == 256 * width {
            group.extend((0..width).map(|_| random.pick(&any)));
        }
    }
}

/// A random S line's numbers.
fn random_head(random: &mut Random, places: u32) -> Vec<u32> {
    let start = random.from_to(0, places - 1);
    let goal = random.from_to(0, places - 1);
    vec![places, random_step(random), start, goal, random_unloading(random)]
}

/// Random wait lines of so many places.
fn random_waits(random: &mut Random, places: u32) -> Vec<u32> {
    (0..places).flat_map(|place| [place, random_cost(random), random_cost(random), random_cost(random)]).collect()
}

/// Random corridor lines in ascending order.
fn random_corridors(random: &mut Random, places: u32) -> Vec<u32> {
    let count = random_count(random).min((places * (places - 1)) as usize);
    let mut ends = BTreeSet::new();
    while ends.len() < count {
        let (from, to) = (random.from_to(0, places - 1), random.from_to(0, places - 1));
        if from != to {
            ends.insert([from, to]);
        }
    }
    ends.into_iter()
        .flat_map(|[from, to]| [from, to, random_cost(random), random_cost(random), random_cost(random)])
        .collect()
}

/// Random closure lines of these corridors in ascending order, often near the last step; now and then one of them names
/// another corridor: the other way, or the same start with another end.
fn random_closures(random: &mut Random, corridors: &[u32], steps: u32) -> Vec<u32> {
    let (corridors, _) = corridors.as_chunks::<5>();
    if corridors.is_empty() {
        return vec![];
    }
    let count = random_count(random).min(200 * corridors.len());
    let few = 1 + random.below(corridors.len());
    let mut closures = BTreeSet::new();
    while closures.len() < count {
        let [from, to, ..] = if count <= 200 * few { random.pick(&corridors[..few]) } else { random.pick(corridors) };
        let near = [steps.saturating_sub(1), steps, (steps + 1).min(255)];
        closures.insert([from, to, if random.percent(15) { random.pick(&near) } else { random_step(random) }]);
    }
    let mut lines: Vec<[u32; 3]> = closures.into_iter().collect();
    if !lines.is_empty() && random.percent(8) {
        misname(&mut lines, corridors, random);
    }
    lines.concat()
}

/// Has a closure name another corridor than its own, which the sheet may have or not.
fn misname(lines: &mut [[u32; 3]], corridors: &[[u32; 5]], random: &mut Random) {
    let at = random.below(lines.len());
    let [from, to, step] = lines[at];
    let [other_from, other_to, ..] = random.pick(corridors);
    lines[at] = random.pick(&[[to, from, step], [from, other_to, step], [other_from, to, step]]);
}

/// Random occupancy lines in ascending order, which begin within so many steps, often at the last; now and then one
/// more at the end, in order or not, that begins one step late.
fn random_occupancies(random: &mut Random, places: u32, steps: u32) -> Vec<u32> {
    let count = random_count(random).min(256 * places as usize);
    let mut occupancies = BTreeSet::new();
    while occupancies.len() < count {
        let first = if random.percent(15) { steps } else { random_step(random) % (steps + 1) };
        occupancies.insert([random.from_to(0, places - 1), first, first.max(random_step(random))]);
    }
    let mut lines: Vec<[u32; 3]> = occupancies.into_iter().collect();
    if steps < 255 && random.percent(5) {
        lines.push([random.from_to(0, places - 1), steps + 1, 255]);
    }
    lines.concat()
}

/// A count of lines: mostly few, at times as many as there may be or one more.
fn random_count(random: &mut Random) -> usize {
    match random.below(100) {
        0..20 => 0,
        20..68 => random.below(6),
        68..86 => random.below(20),
        86..90 => random.below(258),
        90..96 => 256,
        _ => 257,
    }
}

/// A step, often at an end of its range.
fn random_step(random: &mut Random) -> u32 {
    if random.percent(20) { random.pick(&[0, 1, 9, 10, 99, 100, 254, 255]) } else { random.from_to(0, 255) }
}

/// A time to unload, often at an end of its range or where it gets a digit more.
fn random_unloading(random: &mut Random) -> u32 {
    match random.below(3) {
        0 => 0,
        1 => random.pick(&[1, 9, 10, 98, 99]),
        _ => random.from_to(0, 99),
    }
}

/// A cost, often at an end of its range or where it gets a digit more.
fn random_cost(random: &mut Random) -> u32 {
    match random.below(3) {
        0 => random.pick(&[0, 1, 9, 10, 99, 100, 999, 1_000, 9_999, 10_000, 59_999, 60_000]),
        1 => random.from_to(0, 9),
        _ => random.from_to(0, 60_000),
    }
}
