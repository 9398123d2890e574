//! Sheets with large fronts: diamonds in a row, two ways from each place to the next, at costs that none of the other's
//! beats, and waiting that is dear.

use crate::beside::Sheet;

/// The ways of a diamond.
#[derive(Clone, Copy)]
pub enum Ways {
    /// Both take two steps, so that all journeys arrive at one step.
    Even,
    /// One takes two steps and one three, so that they arrive at as many steps as there are diamonds, and one more.
    Uneven,
}

impl Ways {
    pub const ALL: [Ways; 2] = [Ways::Even, Ways::Uneven];

    pub fn name(self) -> &'static str {
        match self {
            Ways::Even => "two steps each",
            Ways::Uneven => "two and three steps",
        }
    }

    /// The ends of the corridors of both ways, counted from the diamond's first place.
    fn corridors(self) -> [&'static [(u32, u32)]; 2] {
        match self {
            Ways::Even => [&[(0, 1), (1, 3)], &[(0, 2), (2, 3)]],
            Ways::Uneven => [&[(0, 1), (1, 4)], &[(0, 2), (2, 3), (3, 4)]],
        }
    }
}

/// The sum of the figures of a way: all journeys of a sheet have one sum, so that no cost dominates another.
const SUM: u32 = 40_000;

/// A sheet of so many diamonds; the seed sets the costs. Its front has two to the power of that costs.
pub fn sheet(ways: Ways, diamonds: u32, seed: u32) -> Sheet {
    let width = ways.corridors().concat().iter().map(|ends| ends.1).max().expect("a way has corridors");
    let mut random = Random(u64::from(seed));
    let mut lines: Vec<[u32; 5]> = (0..diamonds).flat_map(|i| lines(ways, i * width, &mut random)).collect();
    lines.sort();
    let name = format!("seed {seed} of {diamonds} diamonds, {}", ways.name());
    let sheet = Sheet::new(name, text(diamonds * width, &lines));
    assert_eq!(sheet.front.costs.len(), 1 << diamonds, "{}: a cost is reached in two ways", sheet.name);
    sheet
}

/// The same sheet with the goal at the start: a search of the same arrivals, and a front of one cost.
pub fn with_goal_at_start(sheet: &Sheet) -> Sheet {
    let text = std::str::from_utf8(&sheet.text).expect("a sheet is text");
    let mut fields: Vec<&str> = text.split(',').collect();
    fields[4] = "0";
    let alone = Sheet::new(format!("{}, with the goal at the start", sheet.name), fields.join(",").into_bytes());
    assert_eq!(alone.front.arrivals, sheet.front.arrivals, "{}: the goal plays a part in the search", sheet.name);
    alone
}

/// The corridor lines of the diamond whose first place is given: the first corridor of a way has its cost.
fn lines(ways: Ways, first: u32, random: &mut Random) -> Vec<[u32; 5]> {
    let line = |ends: &(u32, u32), [a, b, c]: [u32; 3]| [first + ends.0, first + ends.1, a, b, c];
    let way = |corridors: &[(u32, u32)], cost| {
        let costs = std::iter::once(cost).chain(std::iter::repeat([0; 3]));
        corridors.iter().zip(costs).map(|(ends, cost)| line(ends, cost)).collect::<Vec<_>>()
    };
    ways.corridors().iter().flat_map(|corridors| way(corridors, random.cost())).collect()
}

/// The sheet with its last place as the goal.
fn text(last: u32, lines: &[[u32; 5]]) -> Vec<u8> {
    let mut text = format!("S,{},255,0,{last},0\n", last + 1);
    for place in 0..=last {
        text += &format!("W,{place},50000,50000,50000\n");
    }
    for [from, to, a, b, c] in lines {
        text += &format!("C,{from},{to},{a},{b},{c}\n");
    }
    text.into_bytes()
}

/// Numbers by a linear congruence.
struct Random(u64);

impl Random {
    fn below(&mut self, limit: u32) -> u32 {
        self.0 = self.0.wrapping_mul(6_364_136_223_846_793_005).wrapping_add(1_442_695_040_888_963_407);
        ((self.0 >> 33) % u64::from(limit)) as u32
    }

    fn cost(&mut self) -> [u32; 3] {
        let [a, b] = [self.below(SUM / 2), self.below(SUM / 2)];
        [a, b, SUM - a - b]
    }
}
