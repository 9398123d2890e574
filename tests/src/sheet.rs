// The reference: a reader and a writer of corridor sheets, written from document 01 and document 02's E2, E5, E6 and E8 alone,
// and the kinds of bytes, with the numbers that E4 keeps and the letters of docs/DECISIONS.md, 6.

use crate::answers::{SheetRead, SheetWritten};

/// A sheet has at most so many bytes, and so many lines of C, of X and of O.
const MOST_BYTES: usize = 16_384;
const MOST_LINES: usize = 256;

/// The greatest numbers in range.
const MOST_PLACES: u32 = 64;
const LAST_STEP: u32 = 255;
const MOST_COST: u32 = 60_000;
const MOST_UNLOADING: u32 = 99;

/// A number has at most so many digits.
const MOST_DIGITS: usize = 5;

/// A refusal: its number and the line at fault.
struct Refusal {
    number: u32,
    line: u32,
}

/// The kind of a byte, by its number.
pub fn kind(byte: u8) -> u32 {
    match byte {
        b'0'..=b'9' => 0,
        b',' => 1,
        b'\n' => 2,
        b'A'..=b'Z' => 3,
        _ => 4,
    }
}

/// What the reader hands back for a text.
pub fn read_sheet(text: &[u8]) -> SheetRead {
    let mut sheet = SheetRead::refused(0, 0);
    match add_text(&mut sheet, text) {
        Ok(()) => sheet,
        Err(refusal) => SheetRead::refused(refusal.number, refusal.line),
    }
}

/// What the writer hands back for five groups; their text stands in the buffer unless they are refused.
pub fn write_sheet(
    head: &[u32],
    waits: &[u32],
    corridors: &[u32],
    closures: &[u32],
    occupancies: &[u32],
    out: &mut [u8],
) -> SheetWritten {
    match text_of(head, waits, corridors, closures, occupancies) {
        Err(refusal) => SheetWritten { refusal: refusal.number, line: refusal.line, bytes: 0 },
        Ok(text) if text.len() > out.len() => SheetWritten { refusal: 12, line: 0, bytes: 0 },
        Ok(text) => {
            out[..text.len()].copy_from_slice(&text);
            SheetWritten { refusal: 0, line: 0, bytes: text.len() as u32 }
        }
    }
}

/// Adds a text's lines to the sheet, up to the first faulty one.
fn add_text(sheet: &mut SheetRead, text: &[u8]) -> Result<(), Refusal> {
    if text.len() > MOST_BYTES {
        return Err(Refusal { number: 1, line: 0 });
    }
    if text.is_empty() {
        return Err(Refusal { number: 3, line: 1 });
    }
    let mut cursor = Cursor { text, at: 0 };
    while let Some(letter) = cursor.byte() {
        add_line(sheet, letter, &mut cursor).map_err(|number| at_next_line(sheet, number))?;
    }
    if lacks_waits(sheet) {
        return Err(at_next_line(sheet, 3));
    }
    Ok(())
}

/// Adds the line with this letter to the sheet, or hands back the number of the first test that it fails.
fn add_line(sheet: &mut SheetRead, letter: u8, cursor: &mut Cursor) -> Result<(), u32> {
    match letter {
        b'S' => add_head(sheet, cursor.numbers()?),
        b'W' => add_wait(sheet, cursor.numbers()?),
        b'C' => add_corridor(sheet, cursor.numbers()?),
        b'X' => add_closure(sheet, cursor.numbers()?),
        b'O' => add_occupancy(sheet, cursor.numbers()?),
        _ => Err(2),
    }
}

/// A place in a text.
struct Cursor<'a> {
    text: &'a [u8],
    at: usize,
}

impl Cursor<'_> {
    /// The next byte, and goes on past it.
    fn byte(&mut self) -> Option<u8> {
        let byte = *self.text.get(self.at)?;
        self.at += 1;
        Some(byte)
    }

    /// Test 2 of a line after its letter: so many numbers, each after a comma, and a line feed.
    fn numbers<const N: usize>(&mut self) -> Result<[u32; N], u32> {
        let mut numbers = [0; N];
        for number in &mut numbers {
            if self.byte() != Some(b',') {
                return Err(2);
            }
            *number = self.number()?;
        }
        if self.byte() != Some(b'\n') {
            return Err(2);
        }
        Ok(numbers)
    }

    /// Test 2 of a number: one to five digits, no leading zero except 0 itself.
    #[inline(always)]
    fn number(&mut self) -> Result<u32, u32> {
        let start = self.at;
        let mut number = 0;
        while let Some(byte) = self.text.get(self.at).filter(|byte| byte.is_ascii_digit()) {
            if self.at - start == MOST_DIGITS {
                return Err(2);
            }
            number = 10 * number + u32::from(byte - b'0');
            self.at += 1;
        }
        let len = self.at - start;
        if len == 0 || (self.text[start] == b'0' && len > 1) {
            return Err(2);
        }
        Ok(number)
    }
}

/// Adds an S line to the sheet, or hands back the number of the first test that it fails.
fn add_head(sheet: &mut SheetRead, numbers: [u32; 5]) -> Result<(), u32> {
    let [places, steps, start, goal, unloading] = numbers;
    if sheet.lines[0] > 0 {
        return Err(3);
    }
    if !(1..=MOST_PLACES).contains(&places)
        || steps > LAST_STEP
        || start >= places
        || goal >= places
        || unloading > MOST_UNLOADING
    {
        return Err(4);
    }
    sheet.head = numbers;
    sheet.lines[0] = 1;
    Ok(())
}

/// Adds a W line to the sheet, or hands back the number of the first test that it fails.
fn add_wait(sheet: &mut SheetRead, numbers: [u32; 4]) -> Result<(), u32> {
    let [place, cost @ ..] = numbers;
    let count = sheet.lines[1];
    if sheet.lines[0] == 0 || place != count || count == sheet.head[0] {
        return Err(3);
    }
    if has_cost_out_of_range(cost) {
        return Err(4);
    }
    let (waits, _) = sheet.waits.as_chunks_mut::<4>();
    waits[count as usize] = numbers;
    sheet.lines[1] += 1;
    Ok(())
}

/// Whether a place of the sheet has no W line yet.
fn lacks_waits(sheet: &SheetRead) -> bool {
    sheet.lines[1] < sheet.head[0]
}

/// Adds a C line to the sheet, or hands back the number of the first test that it fails.
fn add_corridor(sheet: &mut SheetRead, numbers: [u32; 5]) -> Result<(), u32> {
    let [from, to, costs @ ..] = numbers;
    let places = sheet.head[0];
    let count = sheet.lines[2] as usize;
    if sheet.lines[0] == 0 || lacks_waits(sheet) || sheet.lines[3] > 0 || sheet.lines[4] > 0 {
        return Err(3);
    }
    let (corridors, _) = sheet.corridors.as_chunks_mut::<5>();
    if count == MOST_LINES {
        return Err(7);
    }
    if from >= places || to >= places || has_cost_out_of_range(costs) {
        return Err(4);
    }
    if from == to {
        return Err(6);
    }
    if count > 0 && (from, to) <= (corridors[count - 1][0], corridors[count - 1][1]) {
        return Err(5);
    }
    corridors[count] = numbers;
    sheet.lines[2] += 1;
    Ok(())
}

/// Adds an X line to the sheet, or hands back the number of the first test that it fails.
fn add_closure(sheet: &mut SheetRead, numbers: [u32; 3]) -> Result<(), u32> {
    let [from, to, step] = numbers;
    let places = sheet.head[0];
    let count = sheet.lines[3] as usize;
    if sheet.lines[0] == 0 || lacks_waits(sheet) || sheet.lines[4] > 0 {
        return Err(3);
    }
    if count == MOST_LINES {
        return Err(7);
    }
    if from >= places || to >= places || step > LAST_STEP {
        return Err(4);
    }
    if from == to {
        return Err(6);
    }
    if !has_corridor(sheet, from, to) {
        return Err(15);
    }
    let (closures, _) = sheet.closures.as_chunks_mut::<3>();
    if count > 0 && numbers <= closures[count - 1] {
        return Err(5);
    }
    closures[count] = numbers;
    sheet.lines[3] += 1;
    Ok(())
}

/// Whether a corridor of the sheet, whose corridors ascend, leads from a place to another.
fn has_corridor(sheet: &SheetRead, from: u32, to: u32) -> bool {
    let (corridors, _) = sheet.corridor_numbers().as_chunks::<5>();
    corridors.binary_search_by_key(&[from, to], |&[from, to, ..]| [from, to]).is_ok()
}

/// Adds an O line to the sheet, or hands back the number of the first test that it fails.
fn add_occupancy(sheet: &mut SheetRead, numbers: [u32; 3]) -> Result<(), u32> {
    let [place, first, last] = numbers;
    let [places, steps, ..] = sheet.head;
    let count = sheet.lines[4] as usize;
    if sheet.lines[0] == 0 || lacks_waits(sheet) {
        return Err(3);
    }
    let (occupancies, _) = sheet.occupancies.as_chunks_mut::<3>();
    if count == MOST_LINES {
        return Err(7);
    }
    if place >= places || first > LAST_STEP || last > LAST_STEP {
        return Err(4);
    }
    if last < first {
        return Err(6);
    }
    if first > steps {
        return Err(16);
    }
    if count > 0 && numbers <= occupancies[count - 1] {
        return Err(5);
    }
    occupancies[count] = numbers;
    sheet.lines[4] += 1;
    Ok(())
}

/// Whether a figure of a cost is above the greatest.
fn has_cost_out_of_range(cost: [u32; 3]) -> bool {
    cost.iter().any(|&figure| figure > MOST_COST)
}

/// The refusal with this number at the line after those that the sheet has.
fn at_next_line(sheet: &SheetRead, number: u32) -> Refusal {
    Refusal { number, line: sheet.lines.iter().sum::<u32>() + 1 }
}

/// The text of five groups, or the first fault in them.
fn text_of(
    head: &[u32],
    waits: &[u32],
    corridors: &[u32],
    closures: &[u32],
    occupancies: &[u32],
) -> Result<Vec<u8>, Refusal> {
    let (heads, after_heads) = head.as_chunks();
    let (waits, after_waits) = waits.as_chunks();
    let (corridors, after_corridors) = corridors.as_chunks();
    let (closures, after_closures) = closures.as_chunks();
    let (occupancies, after_occupancies) = occupancies.as_chunks();
    let left_over = [after_heads, after_waits, after_corridors, after_closures, after_occupancies];
    if heads.len() != 1 || left_over.iter().any(|rest| !rest.is_empty()) {
        return Err(Refusal { number: 2, line: 0 });
    }
    let mut sheet = SheetRead::refused(0, 0);
    let mut text = Vec::with_capacity(MOST_BYTES);
    add_rows(&mut sheet, &mut text, b'S', heads, add_head)?;
    add_rows(&mut sheet, &mut text, b'W', waits, add_wait)?;
    add_rows(&mut sheet, &mut text, b'C', corridors, add_corridor)?;
    add_rows(&mut sheet, &mut text, b'X', closures, add_closure)?;
    add_rows(&mut sheet, &mut text, b'O', occupancies, add_occupancy)?;
    if lacks_waits(&sheet) { Err(at_next_line(&sheet, 3)) } else { Ok(text) }
}

/// Adds the rows of a group to the sheet and to the text, up to the first faulty one.
fn add_rows<const N: usize>(
    sheet: &mut SheetRead,
    text: &mut Vec<u8>,
    letter: u8,
    rows: &[[u32; N]],
    add: impl Fn(&mut SheetRead, [u32; N]) -> Result<(), u32>,
) -> Result<(), Refusal> {
    for &numbers in rows {
        add(sheet, numbers).map_err(|number| at_next_line(sheet, number))?;
        append_line(text, letter, &numbers);
    }
    Ok(())
}

/// Appends a line to the text.
fn append_line(text: &mut Vec<u8>, letter: u8, numbers: &[u32]) {
    text.push(letter);
    for &number in numbers {
        text.push(b',');
        append_number(text, number);
    }
    text.push(b'\n');
}

/// Appends a number's digits to the text.
fn append_number(text: &mut Vec<u8>, number: u32) {
    let mut digits = [0; 10];
    let mut at = digits.len();
    let mut rest = number;
    while at == digits.len() || rest > 0 {
        at -= 1;
        digits[at] = b'0' + (rest % 10) as u8;
        rest /= 10;
    }
    text.extend_from_slice(&digits[at..]);
}
