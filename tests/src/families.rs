//! The families of random sheets of which small ones are taken.

use crate::family::Costs::{self, Figures, Whole};
use crate::family::Waiting::{Any, AtStart, ByPlace, Equal};
use crate::family::{Ends, Family, Occupancies, Unloading};
use crate::random::Random;

const PLAIN: Family = Family {
    name: "plain",
    places: [2, 5],
    steps: [1, 6],
    corridors: [2, 10],
    crossing: Figures(&[0, 1, 2, 3]),
    waiting: Any(Figures(&[0, 1, 2])),
    occupancies: Occupancies { count: [0, 6], longest: 3 },
    ends: Ends::Any,
    unloading: Unloading::Any,
};

/// Sheets with cycles and much to choose from.
const DENSE: Family = Family { places: [3, 5], steps: [2, 6], corridors: [6, 16], ..PLAIN };

/// Sheets with several ways of as many corridors.
const PARALLEL: Family = Family {
    places: [5, 6],
    steps: [3, 4],
    corridors: [16, 26],
    occupancies: Occupancies { count: [0, 3], longest: 2 },
    ends: Ends::Apart,
    ..PLAIN
};

/// Sheets on which the cart has to pass the time, by waiting or by moving about.
const LATE: Family = Family {
    places: [3, 5],
    steps: [4, 6],
    corridors: [4, 12],
    occupancies: Occupancies { count: [0, 2], longest: 2 },
    ends: Ends::ApartAndLate,
    unloading: Unloading::Steps(&[0, 0, 0, 1, 1, 2]),
    ..PLAIN
};

/// Sheets on which the first arrivals at the goal often do not count.
const PARTED: Family = Family {
    places: [3, 4],
    steps: [6, 7],
    corridors: [5, 10],
    occupancies: Occupancies { count: [0, 1], longest: 2 },
    ends: Ends::GoalParted,
    unloading: Unloading::Steps(&[0, 1, 1, 1, 1, 2, 2, 3]),
    ..PLAIN
};

/// Sheets with few corridors on which the cart has to wait, and it matters where.
const WAITING: Family = Family {
    places: [3, 5],
    steps: [4, 7],
    corridors: [4, 9],
    crossing: UNITS,
    occupancies: Occupancies { count: [0, 1], longest: 2 },
    unloading: Unloading::Steps(&[0, 0, 1, 1]),
    ..LATE
};

/// Costs of one figure, of which many sums are equal.
const UNITS: Costs = Whole(&[[0, 1, 0], [0, 0, 1]]);

/// So many of the families, those first, have few ties: costs of the front that several journeys with the same, earliest
/// arrival have; and so many, those after them, have many.
const WITH_FEW_TIES: usize = 18;
const WITH_MANY_TIES: usize = 11;

/// The families of small sheets.
pub const FAMILIES: [Family; 38] = [
    PLAIN,
    Family { name: "one place", places: [1, 1], corridors: [0, 0], ..PLAIN },
    Family { name: "no step", steps: [0, 0], ..PLAIN },
    Family { name: "free waiting", waiting: Any(Figures(&[0])), ..DENSE },
    Family { name: "dear waiting", waiting: Any(Figures(&[3, 5, 9])), ..DENSE },
    Family {
        name: "greatest costs",
        crossing: Figures(&[0, 59_999, 60_000]),
        waiting: Any(Figures(&[0, 59_999, 60_000])),
        ..PLAIN
    },
    Family {
        name: "varied costs",
        places: [4, 7],
        steps: [3, 5],
        corridors: [12, 24],
        crossing: Figures(&[0, 0, 1, 2, 5, 9, 20]),
        waiting: Any(Figures(&[0, 0, 0, 1, 2])),
        ..PLAIN
    },
    Family {
        name: "many costs",
        places: [5, 8],
        steps: [4, 5],
        corridors: [16, 28],
        crossing: Figures(&[0, 0, 0, 1, 3, 4]),
        waiting: Any(Figures(&[0, 1])),
        ..PLAIN
    },
    Family { name: "start occupied", ends: Ends::StartOccupied, ..PLAIN },
    Family { name: "goal occupied", ends: Ends::GoalOccupied, ..DENSE },
    Family { name: "goal at the start", ends: Ends::GoalAtStart, ..DENSE },
    Family {
        name: "one-step occupancies",
        steps: [3, 7],
        occupancies: Occupancies { count: [3, 8], longest: 1 },
        ..DENSE
    },
    Family {
        name: "overlap and end past the horizon",
        steps: [0, 4],
        occupancies: Occupancies { count: [2, 10], longest: 255 },
        ..DENSE
    },
    Family {
        name: "long",
        places: [2, 4],
        steps: [100, 255],
        corridors: [2, 5],
        occupancies: Occupancies { count: [20, 100], longest: 4 },
        ..PLAIN
    },
    Family {
        name: "wide",
        places: [20, 64],
        steps: [2, 4],
        corridors: [100, 256],
        occupancies: Occupancies { count: [0, 256], longest: 3 },
        ..PLAIN
    },
    Family { name: "goal parted", ..PARTED },
    Family { name: "goal at the start and parted", ends: Ends::StartParted, ..PARTED },
    Family {
        name: "long unloading",
        places: [2, 3],
        steps: [98, 110],
        corridors: [2, 4],
        ends: Ends::StartLeft,
        unloading: Unloading::Steps(&[90, 97, 98, 99, 99]),
        ..PARTED
    },
    Family { name: "equal costs on parallel corridors", crossing: Figures(&[1]), ..PARALLEL },
    Family { name: "equal sums on parallel corridors", crossing: UNITS, waiting: Equal(Figures(&[0, 1])), ..PARALLEL },
    Family { name: "moving costs what waiting costs", crossing: Figures(&[1]), waiting: Any(Figures(&[1])), ..LATE },
    Family {
        name: "moving about until the goal is free",
        crossing: Figures(&[1]),
        waiting: Equal(Figures(&[2, 3])),
        places: [4, 5],
        corridors: [8, 14],
        ..LATE
    },
    Family {
        name: "equal sums until the goal is free",
        crossing: Whole(&[[1, 0, 0], [0, 1, 0], [0, 0, 1]]),
        waiting: Equal(Whole(&[[1, 0, 0], [0, 1, 0], [0, 0, 1]])),
        ..LATE
    },
    Family { name: "free waiting until the goal is free", crossing: UNITS, waiting: Any(Figures(&[0])), ..LATE },
    Family {
        name: "cycles without cost",
        crossing: Whole(&[[0; 3], [0; 3], [0, 1, 0]]),
        waiting: Equal(Whole(&[[0; 3], [0; 3], [1, 0, 0]])),
        ..LATE
    },
    Family {
        name: "moving costs what waiting costs, goal parted",
        crossing: Figures(&[1]),
        waiting: Any(Figures(&[1])),
        ends: Ends::ApartAndParted,
        ..PARTED
    },
    Family {
        name: "free waiting, goal parted",
        crossing: UNITS,
        waiting: Any(Figures(&[0])),
        ends: Ends::ApartAndParted,
        ..PARTED
    },
    Family {
        name: "equal sums, goal parted",
        crossing: UNITS,
        waiting: Equal(UNITS),
        ends: Ends::ApartAndParted,
        ..PARTED
    },
    Family {
        name: "long waits",
        places: [3, 4],
        steps: [7, 10],
        corridors: [2, 4],
        crossing: UNITS,
        waiting: Any(Figures(&[0, 0, 1])),
        occupancies: Occupancies { count: [0, 4], longest: 4 },
        ..LATE
    },
    Family { name: "one waiting cost for all places", waiting: Equal(Figures(&[0, 1, 2, 3])), ..WAITING },
    Family {
        name: "waiting free at some places",
        waiting: ByPlace(Whole(&[[0; 3], [0; 3], [2, 1, 0], [1, 0, 2]])),
        ..WAITING
    },
    Family {
        name: "waiting dear at some places",
        waiting: ByPlace(Whole(&[[1, 0, 0], [0, 0, 1], [9, 9, 9]])),
        ..WAITING
    },
    Family {
        name: "waiting dearer in one figure and cheaper in another",
        waiting: ByPlace(Whole(&[[2, 0, 1], [0, 2, 1], [1, 1, 0]])),
        ..WAITING
    },
    Family { name: "waiting free at the start alone", waiting: AtStart([[0; 3], [5, 0, 0]]), ..WAITING },
    Family { name: "waiting dear at the start alone", waiting: AtStart([[5, 5, 5], [0, 0, 1]]), ..WAITING },
    Family {
        name: "waiting dear at the start, beside a store",
        corridors: [3, 5],
        waiting: AtStart([[5, 5, 5], [0; 3]]),
        ends: Ends::BesideStore,
        ..WAITING
    },
    Family { name: "waiting for 60,000 everywhere", waiting: Equal(Figures(&[60_000])), ..WAITING },
    Family {
        name: "waiting for 60,000 or free",
        crossing: Figures(&[0, 1, 60_000]),
        waiting: ByPlace(Whole(&[[60_000; 3], [0; 3]])),
        ..WAITING
    },
];

/// The number of a random family: in half of the cases of one with many ties, in a sixth of one with few, else of one on
/// which the waiting costs of the places matter.
pub fn random_family(random: &mut Random) -> usize {
    let rest = FAMILIES.len() - WITH_FEW_TIES - WITH_MANY_TIES;
    match random.below(6) {
        0 => random.below(WITH_FEW_TIES),
        1..4 => WITH_FEW_TIES + random.below(WITH_MANY_TIES),
        _ => WITH_FEW_TIES + WITH_MANY_TIES + random.below(rest),
    }
}
