//! Damage to the text of a sheet.

use super::of_closures::{ClosureDamage, damage_closure};
use super::of_waits::{WaitDamage, damage_waits};
use super::{NumberDamage, OrderDamage, damage_order, damaged_number, random_line};
use crate::random::Random;
use std::ops::Range;

/// The bytes of sheets, and some that are near to them.
pub const ALPHABET: &[u8] = b"0123456789,\nSWCXO0123456789,\n,1 -+.\r\0xXAswcxo/:@\x80\xff";

/// What is inserted into a line, often before its line feed.
const PIECES: [&str; 10] = [",", ",0", ",1", "S,", "W,", "X,", "O,", " ", "\r", "\0"];

/// What is put in the place of a line's last field, or after it: no field, one at an end of a range, one with a zero
/// too many.
const LAST_FIELDS: [&str; 10] = ["", "", ",0", ",1", ",99", ",100", ",255", ",256", ",00", ",07"];

/// What is done to the text of a sheet.
#[derive(Clone, Copy, Debug, PartialEq, Eq)]
pub enum TextDamage {
    ByteFlipped,
    ByteInserted,
    ByteRemoved,
    Order(OrderDamage),
    Number(NumberDamage),
    Closure(ClosureDamage),
    Wait(WaitDamage),
    DigitsAdded,
    LeadingZeros,
    LetterChanged,
    PieceInserted,
    FieldRemoved,
    LastFieldChanged,
    FinalFeedMissing,
    FeedAdded,
    Truncated,
    Extended,
}

/// Every kind of damage to a text: first to numbers, then to the order of lines, then to closures, then to waits, then all
/// that makes a line ill-formed.
pub const TEXT_DAMAGES: [TextDamage; 45] = [
    TextDamage::Number(NumberDamage::AtBoundary),
    TextDamage::Number(NumberDamage::Nudged),
    TextDamage::Number(NumberDamage::Copied),
    TextDamage::Order(OrderDamage::LineRemoved),
    TextDamage::Order(OrderDamage::LineDuplicated),
    TextDamage::Order(OrderDamage::LinesSwapped),
    TextDamage::Order(OrderDamage::LineMoved),
    TextDamage::Order(OrderDamage::LineAppended),
    TextDamage::Closure(ClosureDamage::Turned),
    TextDamage::Closure(ClosureDamage::OtherEnd),
    TextDamage::Closure(ClosureDamage::ToItself),
    TextDamage::Closure(ClosureDamage::StepBeyond),
    TextDamage::Closure(ClosureDamage::NotAbove),
    TextDamage::Closure(ClosureDamage::BeforeCorridors),
    TextDamage::Closure(ClosureDamage::AfterOccupancy),
    TextDamage::Closure(ClosureDamage::OneTooMany),
    TextDamage::Wait(WaitDamage::FirstMissing),
    TextDamage::Wait(WaitDamage::OneMissing),
    TextDamage::Wait(WaitDamage::LastMissing),
    TextDamage::Wait(WaitDamage::Cut),
    TextDamage::Wait(WaitDamage::Doubled),
    TextDamage::Wait(WaitDamage::Swapped),
    TextDamage::Wait(WaitDamage::OneTooMany),
    TextDamage::Wait(WaitDamage::BeforeHead),
    TextDamage::Wait(WaitDamage::AfterCorridor),
    TextDamage::Wait(WaitDamage::OtherPlace),
    TextDamage::Wait(WaitDamage::CostBeyond),
    TextDamage::Closure(ClosureDamage::NumberMissing),
    TextDamage::Closure(ClosureDamage::NumberMore),
    TextDamage::Wait(WaitDamage::NumberMissing),
    TextDamage::Wait(WaitDamage::NumberMore),
    TextDamage::Wait(WaitDamage::HeadWithCost),
    TextDamage::ByteFlipped,
    TextDamage::ByteInserted,
    TextDamage::ByteRemoved,
    TextDamage::DigitsAdded,
    TextDamage::LeadingZeros,
    TextDamage::LetterChanged,
    TextDamage::PieceInserted,
    TextDamage::FieldRemoved,
    TextDamage::LastFieldChanged,
    TextDamage::FinalFeedMissing,
    TextDamage::FeedAdded,
    TextDamage::Truncated,
    TextDamage::Extended,
];

/// So many kinds are drawn from: to numbers alone, to well-formed lines alone, without closures, with them and with waits
/// too, or all. The tests after 2, and the order among them, show only on well-formed lines.
const KINDS: [usize; 6] = [3, 8, 16, 27, 45, 45];

/// A text of up to 40 random bytes, often the empty one.
pub fn random_bytes(random: &mut Random) -> Vec<u8> {
    let len = if random.percent(20) { 0 } else { random.below(41) };
    (0..len).map(|_| random.pick(ALPHABET)).collect()
}

/// Damages a text one to three times, in half of the cases at one and the same line; hands back what was done.
pub fn damage_text(text: &mut Vec<u8>, random: &mut Random) -> Vec<TextDamage> {
    let count = 1 + random.below(3);
    let kinds = &TEXT_DAMAGES[..random.pick(&KINDS)];
    let at_one_line = random.percent(50);
    let mut at = random_line(random, line_count(text));
    let mut done = Vec::new();
    while done.len() < count && !text.is_empty() {
        let damage = random.pick(kinds);
        damage_line(text, at.min(line_count(text) - 1), damage, random);
        done.push(damage);
        if !at_one_line {
            at = random_line(random, line_count(text).max(1));
        }
    }
    done
}

/// Damages a text that is not empty at one of its lines.
fn damage_line(text: &mut Vec<u8>, at: usize, damage: TextDamage, random: &mut Random) {
    let line = line_range(text, at);
    let byte = random.from_to(line.start as u32, line.end as u32 - 1) as usize;
    match damage {
        TextDamage::ByteFlipped if random.percent(50) => text[byte] ^= 1 << random.below(8),
        TextDamage::ByteFlipped => text[byte] = random.pick(ALPHABET),
        TextDamage::ByteInserted => text.insert(byte, random.pick(ALPHABET)),
        TextDamage::ByteRemoved => {
            text.remove(byte);
        }
        TextDamage::Order(damage) => damage_lines(text, at, damage, random),
        TextDamage::Number(damage) => replace_number(text, line, random, |number, beside, random| {
            damaged_number(number, beside, damage, random).to_string()
        }),
        TextDamage::Closure(damage) => damage_closure(text, damage, random),
        TextDamage::Wait(damage) => damage_waits(text, damage, random),
        TextDamage::DigitsAdded => replace_number(text, line, random, with_digits),
        TextDamage::LeadingZeros => replace_number(text, line, random, |number, _, random| {
            format!("{}{number}", random.pick(&["0", "00", "0000"]))
        }),
        TextDamage::LetterChanged if random.percent(30) => text[line.start] ^= 0x20,
        TextDamage::LetterChanged => text[line.start] = random.pick(b"SSWWCCXXXOOAZswcxo0,"),
        TextDamage::PieceInserted => {
            let at = if random.percent(50) { line.end - 1 } else { byte };
            text.splice(at..at, random.pick(&PIECES).bytes());
        }
        TextDamage::FieldRemoved => remove_field(text, line, random),
        TextDamage::LastFieldChanged => change_last_field(text, line, random),
        TextDamage::FinalFeedMissing => {
            text.pop();
        }
        TextDamage::FeedAdded => {
            let end = if random.percent(50) { text.len() } else { line.end };
            text.insert(end, b'\n');
        }
        TextDamage::Truncated => text.truncate(byte),
        TextDamage::Extended => extend(text, random),
    }
}

/// The count of lines, the last one also where its line feed is missing.
fn line_count(text: &[u8]) -> usize {
    text.split_inclusive(|&byte| byte == b'\n').count()
}

/// Where a line stands in the text, its line feed included.
fn line_range(text: &[u8], at: usize) -> Range<usize> {
    let mut lines = text.split_inclusive(|&byte| byte == b'\n').map(<[u8]>::len);
    let start = lines.by_ref().take(at).sum();
    start..start + lines.next().unwrap_or(0)
}

/// Damages the order of the text's lines.
fn damage_lines(text: &mut Vec<u8>, at: usize, damage: OrderDamage, random: &mut Random) {
    let mut lines: Vec<&[u8]> = text.split_inclusive(|&byte| byte == b'\n').collect();
    damage_order(&mut lines, at, damage, random);
    *text = lines.concat();
}

/// Puts other digits in the place of one of a line's numbers, if it has any; `other` gets the number and one beside it.
fn replace_number(
    text: &mut Vec<u8>,
    line: Range<usize>,
    random: &mut Random,
    other: impl Fn(u32, u32, &mut Random) -> String,
) {
    let numbers = number_ranges(text, line);
    if numbers.is_empty() {
        return;
    }
    let at = random.below(numbers.len());
    let beside = if at > 0 { at - 1 } else { (at + 1) % numbers.len() };
    let digits = other(value(&text[numbers[at].clone()]), value(&text[numbers[beside].clone()]), random);
    text.splice(numbers[at].clone(), digits.into_bytes());
}

/// A number's digits with one to three more before or after them.
fn with_digits(number: u32, _beside: u32, random: &mut Random) -> String {
    let more = random.pick(&["0", "1", "9", "00", "12", "000"]);
    if random.percent(70) { format!("{number}{more}") } else { format!("{more}{number}") }
}

/// Where the runs of digits stand in a line.
fn number_ranges(text: &[u8], line: Range<usize>) -> Vec<Range<usize>> {
    let mut ranges: Vec<Range<usize>> = Vec::new();
    for at in line.filter(|&at| text[at].is_ascii_digit()) {
        match ranges.last_mut() {
            Some(range) if range.end == at => range.end += 1,
            _ => ranges.push(at..at + 1),
        }
    }
    ranges
}

/// The value of some digits, cut at the greatest u32.
fn value(digits: &[u8]) -> u32 {
    digits.iter().fold(0, |value: u32, digit| value.saturating_mul(10).saturating_add(u32::from(digit - b'0')))
}

/// Removes a field of the line with the comma before it, or empties it.
fn remove_field(text: &mut Vec<u8>, line: Range<usize>, random: &mut Random) {
    let numbers = number_ranges(text, line);
    if numbers.is_empty() {
        return;
    }
    let Range { start, end } = numbers[random.below(numbers.len())].clone();
    text.drain(start - usize::from(start > 0 && random.percent(60))..end);
}

/// Removes the last field of the line, adds one more after it or puts another in its place.
fn change_last_field(text: &mut Vec<u8>, line: Range<usize>, random: &mut Random) {
    let comma = text[line.clone()].iter().rposition(|&byte| byte == b',');
    let start = comma.map_or(line.end - 1, |at| line.start + at);
    let kept = if random.percent(30) { line.end - 1 } else { start };
    text.splice(kept..line.end - 1, random.pick(&LAST_FIELDS).bytes());
}

/// Repeats a part of the text up to 16,384 bytes, one more or many more, or up to the limit that document 01 has.
fn extend(text: &mut Vec<u8>, random: &mut Random) {
    let len = random.pick(&[16_384, 16_384, 16_385, 16_385, 16_386, 16_500, 30_000, 10_241]);
    let part = if random.percent(50) { text.clone() } else { random_bytes(random) };
    if !part.is_empty() && text.len() < len {
        text.extend(part.iter().cycle().take(len - text.len()));
    }
}
