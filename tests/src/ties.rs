//! How the tie rule decides among the journeys of a sheet, to be counted.

/// How the tie rule decides: between two journeys of one cost and one arrival step, or against a later arrival.
pub const DECIDED: [&str; 8] = [
    "at step 1",
    "at a later step",
    "amid a wait",
    "between two crossings",
    "for a wait against a crossing to a higher place",
    "for a crossing against a wait at a higher place",
    "otherwise than from the last step back",
    "for the earlier arrival against a lower place",
];

/// How the tie rule decides among the journeys of one cost, whose places are given.
pub struct Choice<'a> {
    /// The journeys with the earliest arrival, in the order of the tie rule.
    earliest: Vec<&'a [u32]>,
    later: Vec<&'a [u32]>,
}

impl<'a> Choice<'a> {
    /// The choice among the journeys of one cost, of which there is one.
    pub fn among(journeys: Vec<&'a [u32]>) -> Choice<'a> {
        let least = journeys.iter().map(|places| places.len()).min();
        let (mut earliest, later): (Vec<_>, Vec<_>) =
            journeys.into_iter().partition(|places| Some(places.len()) == least);
        earliest.sort();
        Choice { earliest, later }
    }

    /// Whether several journeys have the earliest arrival.
    pub fn is_tie(&self) -> bool {
        self.earliest.len() > 1
    }

    /// For each way in which the tie rule decides whether it does so here.
    pub fn decided(&self) -> [bool; DECIDED.len()] {
        let first = self.earliest[0];
        let later = self.later.iter().any(|places| *places < first);
        let Some(second) = self.earliest.get(1) else {
            return [false, false, false, false, false, false, false, later];
        };
        let at = first.iter().zip(*second).take_while(|(one, other)| one == other).count();
        let [wait, other_wait] = [first, second].map(|places| waits(places, at));
        let amid = waits(first, at - 1);
        [at == 1, at > 1, amid, !wait && !other_wait, wait, other_wait, self.turned() != first, later]
    }

    /// The journey that comes first if the places are compared from the last step back.
    fn turned(&self) -> &[u32] {
        let turned = self.earliest.iter().min_by_key(|places| places.iter().rev().collect::<Vec<_>>());
        turned.expect("there is a journey")
    }
}

/// Whether a journey waits into a step.
fn waits(places: &[u32], step: usize) -> bool {
    step > 0 && places[step] == places[step - 1]
}
