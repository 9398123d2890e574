//! Damage to the text of a month.

use super::lines::{lines_of, text_of};
use super::random_line;
use crate::random::Random;

/// What stands for the letter of a line.
const LETTERS: [&str; 10] = ["m", "A", "N", "L", "R", "S", "MM", "0", " M", ""];

/// Numbers above the range, of eight digits.
const ABOVE: [&str; 7] = ["15300001", "15300002", "15300010", "15400000", "16777216", "20000000", "99999999"];

/// Numbers at the ends of the range, and next to them.
const AT_ENDS: [&str; 6] = ["0", "1", "9", "10000000", "15299999", "15300000"];

/// Numbers of nine digits and more; some are in range once the bits past 32 or 64 are cut off.
const TOO_LONG: [&str; 8] = [
    "100000000",
    "015300000",
    "000000000",
    "153000000",
    "999999999",
    "4294967297",
    "18446744073709551617",
    "340282366920938463463374607431768211457",
];

/// What is put before or after a number.
const MARKS: [&str; 10] = [" ", "\t", "+", "-", ".", ".0", "e1", "_", "x", "\""];

/// What a line without a line feed is filled with, and up to how many bytes.
const FILLS: [&str; 6] = ["1", "0", ",", "M", "\0", " "];
const LENGTHS: [usize; 10] = [27, 28, 29, 30, 65_536, 118_784, 118_813, 118_814, 118_815, 200_000];

/// What is done to the text of a month.
#[derive(Clone, Copy, Debug, PartialEq, Eq)]
pub enum MonthDamage {
    ByteFlipped,
    ByteInserted,
    ByteRemoved,
    Field(FieldDamage),
    EmptyLine,
    FinalFeedMissing,
    LinesJoined,
    /// The text ends with a line without a line feed, often a long one.
    Unended,
    /// The text is repeated up to the bytes that decide, or past them.
    Extended,
}

/// What is done to the fields of a line.
#[derive(Clone, Copy, Debug, PartialEq, Eq)]
pub enum FieldDamage {
    LetterChanged,
    Removed,
    Emptied,
    Added,
    LeadingZero,
    NineDigits,
    Marked,
    AboveRange,
    AtEnd,
    ReturnAdded,
    NulAdded,
}

/// All kinds of damage.
pub const MONTH_DAMAGES: [MonthDamage; 19] = [
    MonthDamage::ByteFlipped,
    MonthDamage::ByteInserted,
    MonthDamage::ByteRemoved,
    MonthDamage::Field(FieldDamage::LetterChanged),
    MonthDamage::Field(FieldDamage::Removed),
    MonthDamage::Field(FieldDamage::Emptied),
    MonthDamage::Field(FieldDamage::Added),
    MonthDamage::Field(FieldDamage::LeadingZero),
    MonthDamage::Field(FieldDamage::NineDigits),
    MonthDamage::Field(FieldDamage::Marked),
    MonthDamage::Field(FieldDamage::AboveRange),
    MonthDamage::Field(FieldDamage::AtEnd),
    MonthDamage::Field(FieldDamage::ReturnAdded),
    MonthDamage::Field(FieldDamage::NulAdded),
    MonthDamage::EmptyLine,
    MonthDamage::FinalFeedMissing,
    MonthDamage::LinesJoined,
    MonthDamage::Unended,
    MonthDamage::Extended,
];

/// Damages a text that has lines once, twice or three times; hands back what was done.
pub fn damage_month(text: &mut Vec<u8>, random: &mut Random) -> Vec<MonthDamage> {
    let times = random.pick(&[1, 1, 1, 2, 2, 3]);
    let mut done = Vec::new();
    while done.len() < times && !text.is_empty() {
        let damage = random.pick(&MONTH_DAMAGES);
        let mut lines = lines_of(text);
        damage_lines(&mut lines, damage, random);
        *text = text_of(&lines);
        done.push(damage);
    }
    done
}

/// Damages the lines of a text at one of them, often the first or the last.
fn damage_lines(lines: &mut Vec<String>, damage: MonthDamage, random: &mut Random) {
    let at = random_line(random, lines.len());
    match damage {
        MonthDamage::ByteFlipped | MonthDamage::ByteInserted => {
            let byte = char::from(random.below(256) as u8).to_string();
            let from = random.below(lines[at].chars().count());
            lines[at] = spliced(&lines[at], from, usize::from(damage == MonthDamage::ByteFlipped), &byte);
        }
        MonthDamage::ByteRemoved => lines[at] = spliced(&lines[at], random.below(lines[at].chars().count()), 1, ""),
        MonthDamage::Field(damage) => lines[at] = damaged(&lines[at], damage, random),
        MonthDamage::EmptyLine => lines.insert(at + random.below(2), "\n".to_string()),
        MonthDamage::FinalFeedMissing => drop(lines.last_mut().and_then(String::pop)),
        MonthDamage::LinesJoined => drop(lines[at].pop()),
        MonthDamage::Unended => {
            lines.truncate(at);
            lines.push(random.pick(&FILLS).repeat(random.pick(&LENGTHS)));
        }
        MonthDamage::Extended => extend(lines, random),
    }
}

/// A line with other bytes in the place of some.
fn spliced(line: &str, from: usize, count: usize, bytes: &str) -> String {
    line.chars().take(from).chain(bytes.chars()).chain(line.chars().skip(from + count)).collect()
}

/// Repeats the lines up to the 118,813 bytes that decide, or past them; the last one may be cut.
fn extend(lines: &mut Vec<String>, random: &mut Random) {
    let len = random.pick(&[118_812, 118_813, 118_814, 118_815, 200_000]);
    *lines = vec![lines.concat().chars().cycle().take(len).collect()];
}

/// A line with its fields damaged, and with its line feed, if it has one.
pub fn damaged(line: &str, damage: FieldDamage, random: &mut Random) -> String {
    let (fields, feed) = line.strip_suffix('\n').map_or((line, ""), |fields| (fields, "\n"));
    let mut fields: Vec<String> = fields.split(',').map(str::to_string).collect();
    damage_fields(&mut fields, damage, random);
    fields.join(",") + feed
}

/// Damages one of some fields.
fn damage_fields(fields: &mut Vec<String>, damage: FieldDamage, random: &mut Random) {
    let [any, last] = [random.below(fields.len()), fields.len() - 1];
    let figure = last.min(1 + random.below(3));
    match damage {
        FieldDamage::LetterChanged => fields[0] = random.pick(&LETTERS).to_string(),
        FieldDamage::Removed => drop(fields.remove(any)),
        FieldDamage::Emptied => fields[any].clear(),
        FieldDamage::Added => fields.insert(any + 1, random.pick(&["", "0", "1", "M", "15300000"]).to_string()),
        FieldDamage::LeadingZero => fields[figure].insert(0, '0'),
        FieldDamage::NineDigits => fields[figure] = random.pick(&TOO_LONG).to_string(),
        FieldDamage::Marked => fields[figure] = marked(&fields[figure], random),
        FieldDamage::AboveRange => fields[figure] = random.pick(&ABOVE).to_string(),
        FieldDamage::AtEnd => fields[figure] = random.pick(&AT_ENDS).to_string(),
        FieldDamage::ReturnAdded => fields[last].push('\r'),
        FieldDamage::NulAdded => fields[last].push('\0'),
    }
}

/// A number with a mark before or after it.
fn marked(digits: &str, random: &mut Random) -> String {
    let mark = random.pick(&MARKS);
    if random.percent(50) { format!("{mark}{digits}") } else { format!("{digits}{mark}") }
}
