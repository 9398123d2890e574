// The reference for the page of a month, written from document 02, E3 and E7, alone: the costs of the journeys driven as
// lines `M,c1,c2,c3`, and for each figure one line `A,figure,total,least,greatest,mean`.

use crate::page::line_of;

/// A month has at most so many lines.
pub const MOST_LINES: usize = 4_096;

/// A figure is at most so much.
pub const MOST_FIGURE: u128 = 15_300_000;

/// A number has at most so many digits.
const MOST_DIGITS: usize = 8;

/// The page of a month, or of its refusal: the number and the line.
pub fn page_of(month: &[u8]) -> String {
    match costs_of(month) {
        Ok(costs) => [1, 2, 3].map(|figure| figure_line(figure, &costs)).concat(),
        Err(refused) => line_of('R', &refused),
    }
}

/// The costs of a month, or the number and the line of its refusal; 0 is the line of a month without one.
pub fn costs_of(month: &[u8]) -> Result<Vec<[u128; 3]>, [usize; 2]> {
    let lines: Vec<&[u8]> = month.split_inclusive(|&byte| byte == b'\n').collect();
    if lines.is_empty() {
        return Err([14, 0]);
    }
    let numbered = (1..).zip(lines);
    numbered.map(|(number, line)| cost_of(line, number).map_err(|refusal| [refusal, number])).collect()
}

/// The cost on the line with this number, or the refusal: tested by 2, then 4, then the count of lines.
fn cost_of(line: &[u8], number: usize) -> Result<[u128; 3], usize> {
    let cost = figures_of(line).ok_or(2_usize)?;
    if cost.iter().any(|&figure| figure > MOST_FIGURE) {
        Err(4)
    } else if number > MOST_LINES {
        Err(14)
    } else {
        Ok(cost)
    }
}

/// The figures on a line that is well-formed.
fn figures_of(line: &[u8]) -> Option<[u128; 3]> {
    let text = String::from_utf8(line.to_vec()).ok()?;
    let fields: Vec<&str> = text.strip_suffix('\n')?.split(',').collect();
    let ["M", figures @ ..] = &fields[..] else { return None };
    figures.iter().map(|digits| number_of(digits)).collect::<Option<Vec<u128>>>()?.try_into().ok()
}

/// The number that some digits say, if they are not too many and are those that it is written with.
fn number_of(digits: &str) -> Option<u128> {
    let number: u128 = digits.parse().ok()?;
    (digits.len() <= MOST_DIGITS && number.to_string() == digits).then_some(number)
}

/// The line of a figure, 1 to 3, over the costs of a month.
fn figure_line(figure: usize, costs: &[[u128; 3]]) -> String {
    let mut values: Vec<u128> = costs.iter().map(|cost| cost[figure - 1]).collect();
    values.sort();
    let [total, count] = [values.iter().sum(), values.len() as u128];
    line_of('A', &[figure as u128, total, values[0], values[values.len() - 1], mean_of(total, count)])
}

/// The whole number nearest to the mean of so many values; of two that are equally near the even one.
fn mean_of(total: u128, count: u128) -> u128 {
    let below = total / count;
    let rank = |mean: u128| ((mean * count).abs_diff(total), mean % 2);
    if rank(below) < rank(below + 1) { below } else { below + 1 }
}
