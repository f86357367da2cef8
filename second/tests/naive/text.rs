//! The text by hand: each byte leads from one state to the next, and numbers stay strings of digits.

use super::{Result, NONE};

/// The four numbers of a line, as digits; times with two of them behind the point that is left out.
type Line = [Vec<u8>; 4];

/// Where a line is read: which number, and how many of its digits stand before and behind a comma or point.
#[derive(Clone, Copy)]
struct At {
    number: usize,
    before: usize,
    behind: Option<usize>,
}

impl At {
    const START: At = At { number: 0, before: 0, behind: None };

    /// Whether a number may end here.
    fn ends(self) -> bool {
        self.before > 0 && self.behind != Some(0)
    }

    fn step(self, byte: u8) -> Option<At> {
        let At { number, before, behind } = self;
        match (byte, behind) {
            (b'0'..=b'9', None) => Some(At { before: before + 1, ..self }),
            (b'0'..=b'9', Some(0 | 1)) => Some(At { behind: behind.map(|b| b + 1), ..self }),
            (b',' | b'.', None) if number > 0 && before > 0 => Some(At { behind: Some(0), ..self }),
            (b';', _) if number < 3 && self.ends() => Some(At { number: number + 1, ..At::START }),
            _ => None,
        }
    }
}

/// A line without its line feed.
fn line(bytes: &[u8]) -> Option<Line> {
    let mut numbers = Line::default();
    let mut at = At::START;
    let mut decimals = [0; 4];
    for &byte in bytes {
        at = at.step(byte)?;
        decimals[at.number] = at.behind.unwrap_or(0);
        if byte.is_ascii_digit() {
            numbers[at.number].push(byte);
        }
    }
    for number in 1..4 {
        numbers[number].extend(vec![b'0'; 2 - decimals[number]]);
    }
    (at.number == 3 && at.ends()).then_some(numbers)
}

/// The digits without the zeros in front.
pub fn bare(digits: &[u8]) -> &[u8] {
    let zeros = digits.iter().take_while(|&&digit| digit == b'0').count();
    &digits[zeros..]
}

pub fn is_over(digits: &[u8], most: &[u8]) -> bool {
    let digits = bare(digits);
    digits.len() > most.len() || digits.len() == most.len() && digits > most
}

/// M and the lines' numbers in columns: 52, then line by line 50 and 51.
pub fn columns(text: &[u8]) -> Result<[Vec<u32>; 4]> {
    let mut ends: Vec<usize> = (0..text.len()).filter(|&i| text[i] == b'\n').collect();
    let finished = ends.len();
    if text.last().is_some_and(|&byte| byte != b'\n') {
        ends.push(text.len());
    }
    if ends.len() > 32 {
        return Err((52, NONE));
    }
    let mut columns = [const { Vec::new() }; 4];
    let mut start = 0;
    for (place, end) in ends.into_iter().enumerate() {
        let numbers = if place < finished { line(&text[start..end]) } else { None };
        let numbers = numbers.ok_or((50, place as u64))?;
        if numbers.iter().any(|number| is_over(number, b"1048575")) {
            return Err((51, place as u64));
        }
        for (column, number) in columns.iter_mut().zip(numbers) {
            let digits = String::from_utf8(bare(&number).to_vec()).unwrap();
            column.push(format!("0{digits}").parse().unwrap());
        }
        start = end + 1;
    }
    Ok(columns)
}

/// A task's line, its line feed too.
pub fn written(m: u64, times: [u64; 3]) -> String {
    let mut line = m.to_string();
    for ticks in times {
        let mut digits = ticks.to_string();
        while digits.len() < 3 {
            digits.insert(0, '0');
        }
        digits.insert(digits.len() - 2, '.');
        line = line + ";" + &digits;
    }
    line + "\n"
}
