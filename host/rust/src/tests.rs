//! Document 01's "Sheets to try", sheet D with the journey of document 02, times to unload, closures, and each refusal
//! of a sheet, through the wrapper; waiting costs by place in tests/waits.rs.

mod waits;

use crate::{Closure, Cost, Place, Refusal, Room, Step, Wait, front, journey, read, write};

const A: &str = "S,4,6,0,3,0\nW,0,1,0,0\nW,1,1,0,0\nW,2,1,0,0\nW,3,1,0,0\n\
    C,0,1,1,0,4\nC,0,2,1,3,0\nC,1,3,1,0,4\nC,2,3,1,3,0\nO,1,1,2\n";
const B: &str = "S,5,4,0,4,0\nW,0,1,0,0\nW,1,1,0,0\nW,2,1,0,0\nW,3,1,0,0\nW,4,1,0,0\n\
    C,0,1,1,0,0\nC,0,3,1,0,0\nC,1,2,1,0,0\nC,2,3,0,0,0\nC,3,4,0,0,0\nO,4,0,3\n";
const D: &str = "S,6,3,0,5,0\nW,0,0,0,0\nW,1,0,0,0\nW,2,0,0,0\nW,3,0,0,0\nW,4,0,0,0\nW,5,0,0,0\n\
    C,0,1,1,0,0\nC,0,2,1,0,0\nC,1,4,1,0,0\nC,2,3,1,0,0\nC,3,5,1,0,0\nC,4,5,1,0,0\n";

/// The bed of document 02, E5, stands at 2 at step 0 and at 1 at step 1; the cart goes from 1 to 2.
const BED: &str = "S,3,4,1,2,0\nW,0,1,0,0\nW,1,1,0,0\nW,2,1,0,0\n\
    C,0,1,1,0,0\nC,1,0,1,0,0\nC,1,2,1,0,0\nC,2,1,1,0,0\nO,1,1,1\nO,2,0,0\n";

/// A journey's cost, arrival step and places.
type Told<'a> = (Cost, u32, &'a [u32]);

/// Sheet A with one piece of its text replaced.
fn a_with(old: &str, new: &str) -> String {
    assert_eq!(A.matches(old).count(), 1);
    A.replace(old, new)
}

/// Holds the front and every journey of a text against the count of leading arrivals and the journeys expected.
fn assert_offers(text: &str, arrivals: usize, expected: &[Told]) {
    let front = front(text.as_bytes(), Room::default()).expect("the sheet is served");
    assert_eq!(front.arrivals.len(), arrivals);
    let costs: Vec<(Cost, Step)> = front.costs.iter().map(|offer| (offer.cost, offer.arrival)).collect();
    assert_eq!(costs, expected.iter().map(|told| (told.0, Step(told.1))).collect::<Vec<_>>());
    for (number, told) in (0..).zip(expected) {
        assert_journey(text, number, *told);
    }
    let past = journey(text.as_bytes(), expected.len() as u32, Room::default());
    assert_eq!(past, Err(Refusal { number: 10, line: 0 }));
}

/// Holds one journey of a text against the one expected.
fn assert_journey(text: &str, number: u32, (cost, arrival, places): Told) {
    let journey = journey(text.as_bytes(), number, Room::default()).expect("the number is on the front");
    assert_eq!((journey.cost, journey.arrival), (cost, Step(arrival)));
    assert_eq!(journey.places, places.iter().copied().map(Place).collect::<Vec<_>>());
}

/// The refusal of the front of a text, as its number and line.
fn refused(text: &str, room: Room) -> (u32, u32) {
    let refusal = front(text.as_bytes(), room).expect_err("the sheet is refused");
    (refusal.number, refusal.line)
}

#[test]
fn sheet_a() {
    assert_offers(A, 5, &[([2, 6, 0], 2, &[0, 2, 3]), ([4, 0, 8], 4, &[0, 0, 0, 1, 3])]);
}

#[test]
fn the_leading_arrivals_of_a() {
    let rows: Vec<(u32, u32, Cost)> = front(A.as_bytes(), Room::default())
        .expect("the sheet is served")
        .arrivals
        .iter()
        .map(|arrival| (arrival.place.0, arrival.step.0, arrival.cost))
        .collect();
    let expected = [(0, 0, [0, 0, 0]), (2, 1, [1, 3, 0]), (3, 2, [2, 6, 0]), (1, 3, [3, 0, 4]), (3, 4, [4, 0, 8])];
    assert_eq!(rows, expected);
}

#[test]
fn a_with_place_1_always_occupied() {
    assert_offers(&a_with("O,1,1,2", "O,1,0,6"), 3, &[([2, 6, 0], 2, &[0, 2, 3])]);
}

#[test]
fn a_with_goal_0() {
    assert_offers(&a_with("S,4,6,0,3", "S,4,6,0,0"), 5, &[([0, 0, 0], 0, &[0])]);
}

#[test]
fn a_with_3_steps() {
    assert_offers(&a_with("S,4,6", "S,4,3"), 4, &[([2, 6, 0], 2, &[0, 2, 3])]);
}

#[test]
fn a_with_4_steps() {
    assert_offers(&a_with("S,4,6", "S,4,4"), 5, &[([2, 6, 0], 2, &[0, 2, 3]), ([4, 0, 8], 4, &[0, 0, 0, 1, 3])]);
}

#[test]
fn a_with_the_start_occupied_at_step_0_alone() {
    assert_offers(&a_with("O,1,1,2", "O,0,0,0"), 0, &[]);
}

#[test]
fn a_with_the_goal_always_occupied() {
    assert_offers(&a_with("O,1,1,2\n", "O,1,1,2\nO,3,0,6\n"), 3, &[]);
}

#[test]
fn sheet_b() {
    let front = front(B.as_bytes(), Room::default()).expect("the sheet is served");
    assert_eq!(front.costs.len(), 1);
    assert_journey(B, 0, ([2, 0, 0], 4, &[0, 1, 2, 3, 4]));
}

#[test]
fn sheet_d() {
    assert_journey(D, 0, ([3, 0, 0], 3, &[0, 1, 4, 5]));
}

#[test]
fn a_with_2_steps_to_unload() {
    let text = a_with("S,4,6,0,3,0", "S,4,6,0,3,2");
    assert_offers(&text, 5, &[([2, 6, 0], 2, &[0, 2, 3]), ([4, 0, 8], 4, &[0, 0, 0, 1, 3])]);
}

#[test]
fn a_with_3_steps_to_unload() {
    assert_offers(&a_with("S,4,6,0,3,0", "S,4,6,0,3,3"), 5, &[([2, 6, 0], 2, &[0, 2, 3])]);
}

#[test]
fn a_with_the_goal_occupied_before_the_first_arrival_has_unloaded() {
    let text = a_with("O,1,1,2\n", "O,1,1,2\nO,3,3,3\n").replace("S,4,6,0,3,0", "S,4,6,0,3,1");
    assert_offers(&text, 6, &[([4, 0, 8], 4, &[0, 0, 0, 1, 3]), ([4, 6, 0], 4, &[0, 0, 0, 2, 3])]);
}

#[test]
fn a_bed_that_is_met_in_the_corridor() {
    assert_offers(BED, 4, &[([1, 0, 0], 1, &[1, 2])]);
    let closed = |closures: &str| BED.replace("O,1,", &format!("{closures}O,1,"));
    assert_offers(&closed("X,1,2,0\n"), 4, &[([3, 0, 0], 3, &[1, 0, 1, 2])]);
    assert_offers(&closed("X,2,1,0\n"), 4, &[([1, 0, 0], 1, &[1, 2])]);
}

#[test]
fn a_with_a_corridor_that_opens_at_step_1() {
    let text = a_with("O,1,1,2", "X,0,2,0\nO,1,1,2");
    assert_offers(&text, 5, &[([3, 6, 0], 3, &[0, 0, 2, 3]), ([4, 0, 8], 4, &[0, 0, 0, 1, 3])]);
}

#[test]
fn a_with_closures_after_its_last_step() {
    let text = a_with("O,1,1,2", "X,0,2,6\nX,0,2,7\nX,0,2,255\nO,1,1,2");
    assert_offers(&text, 5, &[([2, 6, 0], 2, &[0, 2, 3]), ([4, 0, 8], 4, &[0, 0, 0, 1, 3])]);
}

#[test]
fn a_sheet_read_and_written_gives_its_own_bytes() {
    let closed = a_with("O,1,1,2", "X,0,2,0\nX,0,2,255\nX,2,3,1\nO,1,1,2");
    for text in [A, B, D, &a_with("S,4,6,0,3,0", "S,4,6,0,3,99"), &closed] {
        let sheet = read(text.as_bytes()).expect("the sheet is served");
        assert_eq!(write(&sheet), Ok(text.as_bytes().to_vec()));
    }
}

#[test]
fn the_values_of_b() {
    let sheet = read(B.as_bytes()).expect("the sheet is served");
    assert_eq!((sheet.places, sheet.steps, sheet.start, sheet.goal), (5, Step(4), Place(0), Place(4)));
    assert_eq!((sheet.unloading, sheet.corridors.len(), sheet.occupancies.len()), (0, 5, 1));
    assert_eq!(sheet.waits, [0, 1, 2, 3, 4].map(|place| Wait { place: Place(place), cost: [1, 0, 0] }));
    let (corridor, occupancy) = (sheet.corridors[2], sheet.occupancies[0]);
    assert_eq!((corridor.from, corridor.to, corridor.cost), (Place(1), Place(2), [1, 0, 0]));
    assert_eq!((occupancy.place, occupancy.first, occupancy.last), (Place(4), Step(0), Step(3)));
}

#[test]
fn the_values_of_closures() {
    let sheet = read(a_with("O,1,1,2", "X,0,2,0\nX,2,3,255\nO,1,1,2").as_bytes()).expect("the sheet is served");
    let closures: Vec<_> = sheet.closures.iter().map(|closure| (closure.from, closure.to, closure.step)).collect();
    assert_eq!(closures, [(Place(0), Place(2), Step(0)), (Place(2), Place(3), Step(255))]);
    assert_eq!((sheet.corridors.len(), sheet.occupancies.len()), (4, 1));
}

#[test]
fn a_closure_of_no_corridor_is_told_when_written() {
    let mut sheet = read(A.as_bytes()).expect("the sheet is served");
    sheet.closures.push(Closure { from: Place(0), to: Place(2), step: Step(7) });
    assert_eq!(write(&sheet), Ok(a_with("O,1,1,2", "X,0,2,7\nO,1,1,2").into_bytes()));
    sheet.closures[0].to = Place(3);
    assert_eq!(write(&sheet), Err(Refusal { number: 15, line: 10 }));
}

#[test]
fn the_writer_names_the_line_that_the_text_would_have() {
    let mut sheet = read(A.as_bytes()).expect("the sheet is served");
    sheet.corridors[1].to = Place(0);
    assert_eq!(write(&sheet), Err(Refusal { number: 6, line: 7 }));
}

#[test]
fn a_time_to_unload_is_written_up_to_99_steps() {
    let mut sheet = read(A.as_bytes()).expect("the sheet is served");
    sheet.unloading = 99;
    assert_eq!(write(&sheet), Ok(a_with("S,4,6,0,3,0", "S,4,6,0,3,99").into_bytes()));
    sheet.unloading = 100;
    assert_eq!(write(&sheet), Err(Refusal { number: 4, line: 1 }));
}

#[test]
fn a_horizon_typed_too_short_is_told_when_written() {
    let mut sheet = read(B.as_bytes()).expect("the sheet is served");
    sheet.occupancies[0].first = Step(4);
    sheet.occupancies[0].last = Step(9);
    assert!(write(&sheet).is_ok());
    sheet.steps = Step(3);
    assert_eq!(write(&sheet), Err(Refusal { number: 16, line: 12 }));
}

#[test]
fn the_refusals_of_a_sheet() {
    let refused = |text: &str| refused(text, Room::default());
    assert_eq!(refused(&"\n".repeat(16_385)), (1, 0));
    assert_eq!(refused(&"\n".repeat(16_384)), (2, 1));
    assert_eq!(refused(&a_with("O,1,1,2", "O,1,007,2")), (2, 10));
    assert_eq!(refused(&a_with("S,4,6,0,3,0", "S,4,6,0,3")), (2, 1));
    assert_eq!(refused(&a_with("S,4,6,0,3,0", "S,4,6,0,3,1,0,0,0")), (2, 1));
    assert_eq!(refused(""), (3, 1));
    assert_eq!(refused(&a_with("O,1,1,2", "O,4,1,2")), (4, 10));
    assert_eq!(refused(&a_with("S,4,6,0,3,0", "S,4,6,0,3,100")), (4, 1));
    assert_eq!(refused(&a_with("C,0,2,", "C,0,1,")), (5, 7));
    assert_eq!(refused(&a_with("O,1,1,2", "O,1,5,4")), (6, 10));
    let occupied: String = (0..257).map(|n| format!("O,{},0,{}\n", n / 100, n % 100)).collect();
    assert_eq!(refused(&a_with("O,1,1,2\n", &occupied)), (7, 266));
    assert_eq!(refused(&a_with("O,1,1,2", "O,1,7,7")), (16, 10));
}

#[test]
fn the_refusals_of_a_closure() {
    let refused = |closures: &str| refused(&a_with("O,1,1,2", &format!("{closures}\nO,1,1,2")), Room::default());
    assert_eq!(refused("X,0,2"), (2, 10));
    assert_eq!(refused("X,0,2,0\nC,3,0,1,0,0"), (3, 11));
    assert_eq!(refused("O,1,0,0\nX,0,2,0"), (3, 11));
    assert_eq!(refused("X,0,2,256"), (4, 10));
    assert_eq!(refused("X,0,2,0\nX,0,2,0"), (5, 11));
    assert_eq!(refused("X,2,2,0"), (6, 10));
    let closed: Vec<String> = (0..257).map(|n| format!("X,0,{},{}", 1 + n / 256, n % 256)).collect();
    assert_eq!(refused(&closed.join("\n")), (7, 266));
    assert_eq!(refused("X,2,0,0"), (15, 10));
    assert_eq!(refused("X,0,3,0"), (15, 10));
}

#[test]
fn the_refusals_of_a_room() {
    assert!(front(A.as_bytes(), Room { arrivals: 5, costs: 2 }).is_ok());
    assert_eq!(refused(A, Room { arrivals: 4, costs: 2 }), (8, 0));
    assert_eq!(refused(A, Room { arrivals: 5, costs: 1 }), (9, 0));
    assert_eq!(refused(A, Room { arrivals: 0, costs: 0 }), (8, 0));
    assert!(journey(A.as_bytes(), 1, Room { arrivals: 5, costs: 0 }).is_ok());
    let too_many = journey(A.as_bytes(), 2, Room { arrivals: 4, costs: 0 });
    assert_eq!(too_many, Err(Refusal { number: 8, line: 0 }));
}

#[test]
fn a_refusal_in_words() {
    let words = |number, line| Refusal { number, line }.to_string();
    assert_eq!(words(4, 3), "refusal 4 at line 3: a number is outside its range");
    assert_eq!(words(8, 0), "refusal 8: there are more leading arrivals than room");
    assert_eq!(words(15, 6), "refusal 15 at line 6: the closure names no corridor of the sheet");
    assert_eq!(words(16, 6), "refusal 16 at line 6: the occupancy begins after the last step");
}
