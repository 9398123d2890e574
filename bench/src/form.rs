//! The forms of a sheet that the peers read. Their newer form is the planner's. The S line of their older form has one
//! waiting cost for all places, at times followed by a time to unload; there are no W lines and no closures.

/// The count of numbers on the S line of the newer form.
const NEWER: usize = 5;

/// The text of a generated sheet as the planner reads it: one in the older form gets a W line for each place, and no
/// time to unload where it has none.
pub fn to_planner(text: &[u8]) -> Vec<u8> {
    let (fields, rest) = parts(text);
    let [_, places, steps, start, goal, w1, w2, w3, unloading @ ..] = &fields[..] else {
        assert_eq!(fields.len(), 1 + NEWER, "the S line is one of neither form");
        return text.to_vec();
    };
    let unloading = unloading.first().unwrap_or(&"0");
    let count: u32 = places.parse().expect("the count of places is a number");
    let waits: String = (0..count).map(|place| format!("W,{place},{w1},{w2},{w3}\n")).collect();
    format!("S,{places},{steps},{start},{goal},{unloading}\n{waits}{rest}").into_bytes()
}

/// The text of a planner's sheet in the older form, which alone bgl reads: all places must have one waiting cost, and
/// there must be neither closures nor a time to unload.
pub fn to_older(text: &[u8]) -> Vec<u8> {
    let (fields, rest) = parts(text);
    let (waits, others): (Vec<&str>, Vec<&str>) = rest.split_inclusive('\n').partition(|line| line.starts_with("W,"));
    let [ends @ .., "0"] = &fields[..] else { panic!("the older form has no time to unload") };
    let cost = waiting(waits[0]);
    assert!(waits.iter().all(|line| waiting(line) == cost), "the older form has one waiting cost");
    assert!(!others.iter().any(|line| line.starts_with("X,")), "the older form has no closures");
    format!("{},{cost}{}", ends.join(","), others.concat()).into_bytes()
}

/// The fields of a sheet's S line, and the lines after it.
pub fn parts(text: &[u8]) -> (Vec<&str>, &str) {
    let text = std::str::from_utf8(text).expect("a sheet is text");
    let (head, rest) = text.split_once('\n').expect("a sheet has an S line");
    (head.split(',').collect(), rest)
}

/// The waiting cost on a line `W,place,w1,w2,w3`, with its line feed.
fn waiting(line: &str) -> &str {
    line.splitn(3, ',').nth(2).expect("a W line has a place and a cost")
}
