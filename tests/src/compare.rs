//! One input given to the planner and to the reference: the planner's answer, or a report of the difference.

use crate::answers::{SheetRead, SheetWritten};
use crate::groups::Groups;
use crate::lent::Lent;
use crate::random::Random;
use crate::{planner, sheet};

/// The kind of a byte, from the planner and from the reference.
pub fn compare_kind(byte: u8) -> Result<u32, String> {
    let [answer, expected] = [planner::kind(byte), sheet::kind(byte)];
    if answer == expected {
        Ok(answer)
    } else {
        Err(report("the kinds differ", &format!("byte {byte}"), &answer.to_string(), &expected.to_string()))
    }
}

/// Both readers on a text; where it is read, the planner writes it back and must give its own bytes.
pub fn compare_reading(text: &[u8], random: &mut Random) -> Result<SheetRead, String> {
    let lent = Lent::holding(text, random, b"0123456789,\nSWCXO");
    let answer = planner::read(lent.cells());
    let expected = sheet::read_sheet(text);
    let input = || format!("text of {} bytes \"{}\"", text.len(), text.escape_ascii());
    if answer != expected {
        return Err(report("the readers differ", &input(), &shown_read(&answer), &shown_read(&expected)));
    }
    if answer.refusal == 0 {
        compare_written_back(text, &answer, random)?;
    }
    Ok(answer)
}

/// The planner's writer on what its reader handed back, with a buffer as long as the text.
fn compare_written_back(text: &[u8], read: &SheetRead, random: &mut Random) -> Result<(), String> {
    let mut out = Lent::buffer(text.len(), random);
    let mut expected_out = out.clone();
    expected_out.cells_mut().copy_from_slice(text);
    let answer = write_read(read, out.cells_mut());
    let expected = SheetWritten { refusal: 0, line: 0, bytes: text.len() as u32 };
    if answer != expected || out != expected_out {
        let input = format!("text \"{}\"", text.escape_ascii());
        return Err(report(
            "read and written back, the sheet is another",
            &input,
            &shown(&answer, &out),
            &shown(&expected, &expected_out),
        ));
    }
    Ok(())
}

/// The planner's writer on what its reader handed back.
fn write_read(read: &SheetRead, out: &mut [u8]) -> SheetWritten {
    let [head, waits, corridors, closures, occupancies] =
        [&read.head, read.wait_numbers(), read.corridor_numbers(), read.closure_numbers(), read.occupancy_numbers()];
    planner::write(head, waits, corridors, closures, occupancies, out)
}

/// Both writers on groups, each with a buffer of this length and the same pattern in it; where they are
/// written, the planner reads them back and must give their own numbers.
pub fn compare_writing(groups: &Groups, len: usize, random: &mut Random) -> Result<SheetWritten, String> {
    let around: Vec<u32> = (0..8).collect();
    let [head, waits, corridors, closures, occupancies] =
        groups.all().map(|group| Lent::holding(group, random, &around));
    let mut out = Lent::buffer(len, random);
    let mut expected_out = out.clone();
    let [head, waits, corridors, closures, occupancies] =
        [&head, &waits, &corridors, &closures, &occupancies].map(Lent::cells);
    let answer = planner::write(head, waits, corridors, closures, occupancies, out.cells_mut());
    let [head, waits, corridors, closures, occupancies] = groups.all();
    let expected = sheet::write_sheet(head, waits, corridors, closures, occupancies, expected_out.cells_mut());
    let input = || format!("a buffer of {len} bytes and {groups:?}");
    if answer != expected || out != expected_out {
        return Err(report("the writers differ", &input(), &shown(&answer, &out), &shown(&expected, &expected_out)));
    }
    if answer.refusal == 0 {
        compare_read_back(groups, &out.cells()[..answer.bytes as usize])?;
    }
    Ok(answer)
}

/// The planner's reader on what its writer wrote of valid groups.
fn compare_read_back(groups: &Groups, text: &[u8]) -> Result<(), String> {
    let answer = planner::read(text);
    let expected = read_of(groups);
    if answer != expected {
        return Err(report(
            "written and read back, the groups are others",
            &format!("{groups:?}"),
            &shown_read(&answer),
            &shown_read(&expected),
        ));
    }
    Ok(())
}

/// What reading the text of valid groups hands back.
fn read_of(groups: &Groups) -> SheetRead {
    let mut read = SheetRead::refused(0, 0);
    let counts = [groups.waits.len() / 4, groups.corridors.len() / 5, groups.closures.len() / 3];
    let [waits, corridors, closures] = counts.map(|count| count as u32);
    read.lines = [1, waits, corridors, closures, groups.occupancies.len() as u32 / 3];
    read.head.copy_from_slice(&groups.head);
    read.waits[..groups.waits.len()].copy_from_slice(&groups.waits);
    read.corridors[..groups.corridors.len()].copy_from_slice(&groups.corridors);
    read.closures[..groups.closures.len()].copy_from_slice(&groups.closures);
    read.occupancies[..groups.occupancies.len()].copy_from_slice(&groups.occupancies);
    read
}

/// A reader's answer, without the zeros at the end of each group.
fn shown_read(read: &SheetRead) -> String {
    format!(
        "refusal {} line {} lines {:?} head {:?} waits {:?} corridors {:?} closures {:?} occupancies {:?}",
        read.refusal,
        read.line,
        read.lines,
        read.head,
        without_last_zeros(&read.waits),
        without_last_zeros(&read.corridors),
        without_last_zeros(&read.closures),
        without_last_zeros(&read.occupancies)
    )
}

/// The numbers up to the last one that is not zero.
fn without_last_zeros(numbers: &[u32]) -> &[u32] {
    let end = numbers.iter().rposition(|&n| n != 0).map_or(0, |last| last + 1);
    &numbers[..end]
}

/// A writer's answer and its buffer, with the bytes around it.
fn shown(written: &SheetWritten, out: &Lent<u8>) -> String {
    format!("{written:?} and, with the bytes around it, the buffer \"{}\"", out.with_margins().escape_ascii())
}

/// A difference, with the input and both answers.
pub fn report(what: &str, input: &str, planner: &str, expected: &str) -> String {
    format!("{what}\n  input: {input}\n  planner: {planner}\n  expected: {expected}")
}
