//! Waiting costs by place (document 02, E8), through the wrapper.

use super::{A, a_with, assert_offers, refused};
use crate::{Place, Refusal, Room, Sheet, Wait, read, write};

/// E8's case: to wait costs nothing at 0 and 2 and (5,0,0) at 1, and the goal is occupied until step 3.
const CASE: &str = "S,3,4,0,2,0\nW,0,0,0,0\nW,1,5,0,0\nW,2,0,0,0\nC,0,1,1,0,0\nC,1,2,1,0,0\nO,2,0,3\n";

/// The values of E8's case.
fn case() -> Sheet {
    read(CASE.as_bytes()).expect("the sheet is served")
}

/// The refusal of E8's case written after an edit of its values, as its number and line.
fn refused_written(edit: impl FnOnce(&mut Sheet)) -> (u32, u32) {
    let mut sheet = case();
    edit(&mut sheet);
    let Refusal { number, line } = write(&sheet).expect_err("the values are refused");
    (number, line)
}

#[test]
fn a_wait_costs_what_its_place_says() {
    assert_offers(CASE, 6, &[([2, 0, 0], 4, &[0, 0, 0, 1, 2])]);
    let free_at_1 = CASE.replace("W,0,0,", "W,0,5,").replace("W,1,5,", "W,1,0,");
    assert_offers(&free_at_1, 3, &[([2, 0, 0], 4, &[0, 1, 1, 1, 2])]);
}

#[test]
fn a_with_noise_while_waiting_at_the_start() {
    let text = a_with("W,0,1,0,0", "W,0,1,2,0");
    assert_offers(&text, 5, &[([2, 6, 0], 2, &[0, 2, 3]), ([4, 4, 8], 4, &[0, 0, 0, 1, 3])]);
}

#[test]
fn the_values_of_waits() {
    let sheet = case();
    let wait = |place, cost| Wait { place: Place(place), cost };
    assert_eq!(sheet.waits, [wait(0, [0, 0, 0]), wait(1, [5, 0, 0]), wait(2, [0, 0, 0])]);
    assert_eq!(write(&sheet), Ok(CASE.as_bytes().to_vec()));
}

#[test]
fn a_waiting_cost_is_written_up_to_60_000() {
    let mut sheet = case();
    sheet.waits[1].cost = [60_000, 0, 60_000];
    assert_eq!(write(&sheet), Ok(CASE.replace("W,1,5,0,0", "W,1,60000,0,60000").into_bytes()));
    assert_eq!(refused_written(|sheet| sheet.waits[1].cost[2] = 60_001), (4, 3));
}

#[test]
fn the_writer_refuses_a_missing_wait_at_the_line_after_the_last_one() {
    assert_eq!(refused_written(|sheet| sheet.waits.truncate(2)), (3, 4));
    assert_eq!(refused_written(|sheet| sheet.waits.clear()), (3, 2));
    assert_eq!(refused_written(|sheet| sheet.places = 4), (3, 5));
    let nothing_follows = |sheet: &mut Sheet| {
        sheet.waits.truncate(2);
        sheet.corridors.clear();
        sheet.occupancies.clear();
    };
    assert_eq!(refused_written(nothing_follows), (3, 4));
}

#[test]
fn the_writer_refuses_a_wait_out_of_its_turn_at_its_line() {
    assert_eq!(refused_written(|sheet| sheet.waits.swap(1, 2)), (3, 3));
    assert_eq!(refused_written(|sheet| sheet.waits[2].place = Place(1)), (3, 4));
    assert_eq!(refused_written(|sheet| sheet.waits[0] = Wait { place: Place(64), cost: [60_001; 3] }), (3, 2));
}

#[test]
fn the_writer_refuses_a_wait_too_many_at_its_line() {
    assert_eq!(refused_written(|sheet| sheet.waits.push(Wait { place: Place(3), cost: [0; 3] })), (3, 5));
    let many = |sheet: &mut Sheet| sheet.waits = (0..300).map(|n| Wait { place: Place(n), cost: [0; 3] }).collect();
    assert_eq!(refused_written(many), (3, 5));
}

#[test]
fn the_refusals_of_a_wait() {
    let refused = |old: &str, new: &str| refused(&a_with(old, new), Room::default());
    assert_eq!(refused("W,1,1,0,0", "W,1,1,0"), (2, 3));
    assert_eq!(refused("W,1,1,0,0\n", ""), (3, 3));
    assert_eq!(refused("W,1,1,0,0", "W,2,1,0,0"), (3, 3));
    assert_eq!(refused("W,1,1,0,0", "W,64,1,0,0"), (3, 3));
    assert_eq!(refused("W,3,1,0,0", "W,3,1,0,0\nW,4,1,0,0"), (3, 6));
    assert_eq!(refused("W,3,1,0,0\n", ""), (3, 5));
    assert_eq!(refused("O,1,1,2", "W,3,1,0,0"), (3, 10));
    assert_eq!(refused("W,1,1,0,0", "W,1,60001,0,0"), (4, 3));
}

#[test]
fn a_text_that_ends_before_its_last_wait_is_refused_at_the_number_after_its_last_line() {
    let lines: Vec<&str> = A.split_inclusive('\n').collect();
    for count in 0..5 {
        assert_eq!(refused(&lines[..count].concat(), Room::default()), (3, count as u32 + 1));
    }
    assert!(read(lines[..5].concat().as_bytes()).is_ok());
}
