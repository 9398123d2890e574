//! The lines of a sheet's text, to be damaged one by one.

use crate::random::Random;

/// The lines of a text, each with its line feed, if it has one; a byte is a char.
pub fn lines_of(text: &[u8]) -> Vec<String> {
    text.split_inclusive(|&byte| byte == b'\n').map(|line| line.iter().copied().map(char::from).collect()).collect()
}

/// The text of some lines.
pub fn text_of(lines: &[String]) -> Vec<u8> {
    lines.concat().chars().map(|byte| byte as u8).collect()
}

/// The positions of the lines with a letter.
pub fn positions(lines: &[String], letter: char) -> Vec<usize> {
    (0..lines.len()).filter(|&at| lines[at].starts_with(letter)).collect()
}

/// The numbers of a line, none where it is malformed.
pub fn numbers_of(line: &str) -> Vec<u32> {
    let fields = line.trim_end_matches('\n').split(',').skip(1);
    fields.map(|digits| digits.parse().ok()).collect::<Option<Vec<u32>>>().unwrap_or_default()
}

/// The line of a letter with these numbers.
pub fn line_of(letter: char, numbers: &[u32]) -> String {
    let fields: String = numbers.iter().map(|number| format!(",{number}")).collect();
    format!("{letter}{fields}\n")
}

/// Moves a line to so many lines after one of a letter, if there is one.
pub fn move_to(lines: &mut Vec<String>, at: usize, letter: char, after: usize, random: &mut Random) {
    let line = lines.remove(at);
    let places = positions(lines, letter);
    let to = if places.is_empty() { at } else { random.pick(&places) + after };
    lines.insert(to, line);
}
