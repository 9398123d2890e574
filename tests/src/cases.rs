//! The stored cases: inputs with the refusal number and the line that documents 01 and 02 give them.
//!
//! A case is a line of text, a line that begins with # is a comment. A sheet's case is
//! `REFUSAL LINE "TEXT" REMARK`; in the text `\n` is a line feed, `\xHH` a byte, and `{N*W}`, `{N*C}`,
//! `{N*X}`, `{N*O}` are N ascending lines of that letter, waits of (1,0,0), `{N*TEXT}` is a text N times. A case of groups
//! is `REFUSAL LINE BUFFER [HEAD] [WAITS] [CORRIDORS] [CLOSURES] [OCCUPANCIES] REMARK`, with numbers parted by blanks.
//!
//! The kinds of bytes are 256 numbers, parted by blanks and line ends.
//!
//! A case of a front has several lines: `= NAME`, the sheet, at times `L,ARRIVALS,LIST` with the lengths of the lent
//! arrays (without it, the program's), and the answer: `R,refusal,line`, or `F,costs,arrivals`, `A,` with each row of
//! the arrivals table, and for each cost `J,` with its row of the list and `P,` with the places. With
//! `N,NUMBER,ARRIVALS,PATH` a case is one of a journey with that number and arrays of those lengths; the answer is
//! `R,refusal,line`, or `J,` and `P,`.
//!
//! A case of a month has several lines: `= NAME`, the month as one text or several, `"TEXT"` as that of a sheet, one after the
//! other, and the page.

use crate::groups::{Groups, ascending_closures, ascending_corridors, ascending_occupancies, ascending_waits};
use crate::page::PROGRAM_LENS;

/// A text for the reader, with the answer expected.
pub struct SheetCase {
    pub refusal: u32,
    pub line: u32,
    pub text: Vec<u8>,
    pub remark: String,
}

/// Groups and a buffer's length for the writer, with the answer expected.
pub struct GroupsCase {
    pub refusal: u32,
    pub line: u32,
    pub buffer: usize,
    pub groups: Groups,
    pub remark: String,
}

/// A sheet and what is asked of it, with the answer expected.
pub struct FrontCase {
    pub name: String,
    pub text: Vec<u8>,
    pub asked: Asked,
    pub page: String,
}

/// A month with its page.
pub struct MonthCase {
    pub name: String,
    pub month: Vec<u8>,
    pub page: String,
}

/// What is asked of a sheet, with the lengths of the lent arrays.
pub enum Asked {
    Front([usize; 2]),
    Journey(u32, [usize; 2]),
}

/// The cases of sheets in a stored file's content.
pub fn sheet_cases(content: &str) -> Vec<SheetCase> {
    case_lines(content).map(sheet_case).collect()
}

/// The cases of groups in a stored file's content.
pub fn groups_cases(content: &str) -> Vec<GroupsCase> {
    case_lines(content).map(groups_case).collect()
}

/// The kinds of the bytes in a stored file's content, from byte 0 on.
pub fn kinds(content: &str) -> Vec<u32> {
    case_lines(content).flat_map(str::split_whitespace).map(|kind| kind.parse().expect("a kind is a number")).collect()
}

/// The cases of fronts in a stored file's content.
pub fn front_cases(content: &str) -> Vec<FrontCase> {
    long_cases(content, front_case)
}

/// The cases of months in a stored file's content.
pub fn month_cases(content: &str) -> Vec<MonthCase> {
    long_cases(content, month_case)
}

/// The cases of several lines, the first of which begins with =.
fn long_cases<T>(content: &str, case: fn(&[&str]) -> T) -> Vec<T> {
    let lines: Vec<&str> = case_lines(content).collect();
    lines.chunk_by(|_, next| !next.starts_with('=')).map(case).collect()
}

/// The lines that are cases.
fn case_lines(content: &str) -> impl Iterator<Item = &str> {
    content.lines().filter(|line| !line.is_empty() && !line.starts_with('#'))
}

/// The case that a line is.
fn sheet_case(case: &str) -> SheetCase {
    let (refusal, rest) = number_before(case, " ");
    let (line, rest) = number_before(rest, " \"");
    let (text, remark) = parts(rest, "\" ");
    SheetCase { refusal, line, text: unescaped(text), remark: remark.to_string() }
}

/// The case that a line is.
fn groups_case(case: &str) -> GroupsCase {
    let (refusal, rest) = number_before(case, " ");
    let (line, rest) = number_before(rest, " ");
    let (buffer, rest) = number_before(rest, " [");
    let (head, rest) = parts(rest, "] [");
    let (waits, rest) = parts(rest, "] [");
    let (corridors, rest) = parts(rest, "] [");
    let (closures, rest) = parts(rest, "] [");
    let (occupancies, remark) = parts(rest, "] ");
    let [head, waits, corridors, closures, occupancies] = [head, waits, corridors, closures, occupancies].map(numbers);
    let groups = Groups { head, waits, corridors, closures, occupancies };
    GroupsCase { refusal, line, buffer: buffer as usize, groups, remark: remark.to_string() }
}

/// The case that some lines are.
fn front_case(lines: &[&str]) -> FrontCase {
    let name = lines[0].trim_start_matches("= ").to_string();
    let of = |letters: &str| -> String {
        lines[1..]
            .iter()
            .filter(|line| line.starts_with(|c| letters.contains(c)))
            .map(|line| format!("{line}\n"))
            .collect()
    };
    FrontCase { name, text: of("SWCXO").into_bytes(), asked: asked_of(&of("LN")), page: of("RFAJP") }
}

/// The case that some lines are.
fn month_case(lines: &[&str]) -> MonthCase {
    let name = lines[0].trim_start_matches("= ").to_string();
    let (texts, page): (Vec<&str>, Vec<&str>) = lines[1..].iter().partition(|line| line.starts_with('"'));
    let month = texts.iter().flat_map(|text| unescaped(text.trim_matches('"'))).collect();
    MonthCase { name, month, page: page.iter().map(|line| format!("{line}\n")).collect() }
}

/// What is asked by a line `L,ARRIVALS,LIST` or `N,NUMBER,ARRIVALS,PATH`, or without a line.
fn asked_of(line: &str) -> Asked {
    let numbers: Vec<u32> = line.trim_end().split(',').skip(1).map(decimal).collect();
    match numbers[..] {
        [arrivals, list] => Asked::Front([arrivals as usize, list as usize]),
        [number, arrivals, path] => Asked::Journey(number, [arrivals as usize, path as usize]),
        _ => Asked::Front(PROGRAM_LENS),
    }
}

/// What stands before and after a mark.
fn parts<'a>(text: &'a str, mark: &str) -> (&'a str, &'a str) {
    text.split_once(mark).unwrap_or_else(|| panic!("a stored case lacks {mark:?} in {text:?}"))
}

/// The number before a mark, and what stands after the mark.
fn number_before<'a>(text: &'a str, mark: &str) -> (u32, &'a str) {
    let (number, rest) = parts(text, mark);
    (decimal(number), rest)
}

/// The number that some digits say.
fn decimal(digits: &str) -> u32 {
    digits.parse().unwrap_or_else(|_| panic!("a stored case has {digits:?} for a number"))
}

/// The bytes that an escaped text stands for.
fn unescaped(text: &str) -> Vec<u8> {
    let mut bytes = Vec::new();
    let mut rest = text;
    while let Some(first) = rest.chars().next() {
        let len = match first {
            '\\' if rest.starts_with("\\n") => 2,
            '\\' => 4,
            '{' => rest.find('}').expect("a stored case lacks }") + 1,
            _ => 1,
        };
        bytes.extend(unescaped_piece(&rest[..len]));
        rest = &rest[len..];
    }
    bytes
}

/// The bytes of one escape, one repetition or one byte of an escaped text.
fn unescaped_piece(piece: &str) -> Vec<u8> {
    if piece == "\\n" {
        return vec![b'\n'];
    }
    if let Some(digits) = piece.strip_prefix("\\x") {
        return vec![u8::from_str_radix(digits, 16).expect("a stored case has a bad \\x")];
    }
    match piece.strip_prefix('{').and_then(|inner| inner.strip_suffix('}')) {
        Some(inner) => repeated(inner),
        None => piece.as_bytes().to_vec(),
    }
}

/// The text of `N*W`, `N*C`, `N*X`, `N*O` or `N*TEXT`.
fn repeated(inner: &str) -> Vec<u8> {
    let (count, what) = number_before(inner, "*");
    match what {
        "W" => Groups { waits: ascending_waits(count), ..Groups::default() }.text(),
        "C" => Groups { corridors: ascending_corridors(count), ..Groups::default() }.text(),
        "X" => Groups { closures: ascending_closures(count), ..Groups::default() }.text(),
        "O" => Groups { occupancies: ascending_occupancies(count), ..Groups::default() }.text(),
        text => unescaped(text).repeat(count as usize),
    }
}

/// The numbers of a group, with `{N*W}`, `{N*C}`, `{N*X}` and `{N*O}` for ascending lines.
fn numbers(group: &str) -> Vec<u32> {
    group.split_whitespace().flat_map(number_or_lines).collect()
}

/// The number, or the numbers of some ascending lines, that a word of a group stands for.
fn number_or_lines(word: &str) -> Vec<u32> {
    match word.strip_prefix('{').and_then(|inner| inner.strip_suffix('}')) {
        None => vec![decimal(word)],
        Some(inner) => match number_before(inner, "*") {
            (count, "W") => ascending_waits(count),
            (count, "C") => ascending_corridors(count),
            (count, "X") => ascending_closures(count),
            (count, "O") => ascending_occupancies(count),
            (_, other) => panic!("a stored case repeats {other:?}"),
        },
    }
}
