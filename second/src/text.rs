//! The order form's text: a line `m;T;D;C` for each task, the times in milliseconds.

use crate::answer::{Cause, Refusal};
use crate::order::{Order, Task};
use std::io::Write;

/// The longest text that is written, in bytes: 32 lines like `64;10000.00;10000.00;10000.00`.
pub const MOST: usize = 32 * 30;

/// The most lines.
const LINES: usize = 32;

/// The largest number, times in ticks.
const NUMBER: u32 = 1_048_575;

/// Ticks in a millisecond.
const TICKS: u32 = 100;

/// The order that a text is given with M: 52, line by line 50 and 51, then the writer's 3, 4 and 7 to 10.
pub fn read(processors: u32, text: &[u8]) -> Result<Order, Refusal> {
    let lines = text.split_inclusive(|&byte| byte == b'\n');
    Cause::LineCount.unless(lines.clone().count() <= LINES)?;
    let mut columns = [const { Vec::new() }; 4];
    for (place, line) in lines.enumerate() {
        let numbers = numbers(line).ok_or(Cause::LineShape.at(place))?;
        Cause::LineNumber.unless_at(place, numbers.iter().all(|&number| number <= NUMBER))?;
        columns.iter_mut().zip(numbers).for_each(|(column, number)| column.push(number));
    }
    Order::from_columns(processors, columns.each_ref().map(|column| &column[..]))
}

/// The text of an order, with a point and two decimals.
pub fn write(order: &Order) -> Vec<u8> {
    let mut text = Vec::new();
    for &Task { m, t, d, c } in &order.tasks {
        write!(text, "{m}").expect("room in memory");
        for ticks in [t, d, c] {
            write!(text, ";{}.{:02}", ticks / TICKS, ticks % TICKS).expect("room in memory");
        }
        text.push(b'\n');
    }
    text
}

/// The four numbers of a line that has the shape.
fn numbers(line: &[u8]) -> Option<[u32; 4]> {
    let mut parts = line.strip_suffix(b"\n")?.split(|&byte| byte == b';');
    let width = digits(parts.next()?)?;
    let mut next = || time(parts.next()?);
    let numbers = [width, next()?, next()?, next()?];
    parts.next().is_none().then_some(numbers)
}

/// The ticks of a time: digits, then optionally a comma or point and one or two digits.
fn time(part: &[u8]) -> Option<u32> {
    let mut halves = part.splitn(2, |byte| matches!(byte, b',' | b'.'));
    let whole = digits(halves.next()?)? * TICKS;
    match halves.next() {
        None => Some(whole),
        Some(tenth @ [_]) => Some(whole + 10 * digits(tenth)?),
        Some(hundredths @ [_, _]) => Some(whole + digits(hundredths)?),
        Some(_) => None,
    }
}

/// The value of one digit or more; one over the largest number for any over it.
fn digits(part: &[u8]) -> Option<u32> {
    let join = |value: u32, byte: &u8| (10 * value + u32::from(byte - b'0')).min(NUMBER + 1);
    let all = !part.is_empty() && part.iter().all(u8::is_ascii_digit);
    all.then(|| part.iter().fold(0, join))
}
