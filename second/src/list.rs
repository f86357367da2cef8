//! Lists of processors, as `0-3,7`: numbers and ranges joined by commas.

use crate::answer::{Cause, Refusal};
use crate::set;

/// The longest list that is written, in bytes: `0-1,3-4,6-7,9-10,12-13, .. ,60-61,63`.
pub const MOST: usize = 121;

/// The longest text that is read, in bytes.
pub const TEXT: usize = 1_024;

/// The largest number.
const NUMBER: u32 = 63;

/// The list of a set: its runs by rising number, a single processor alone.
pub fn write(set: u64) -> Vec<u8> {
    let item =
        |(first, last)| if first == last { format!("{first}") } else { format!("{first}-{last}") };
    set::runs(set).map(item).collect::<Vec<String>>().join(",").into_bytes()
}

/// The set of a list: 65, then 60, 61 and 62, each looked for by itself; "the lowest place decides".
pub fn read(text: &[u8]) -> Result<u64, Refusal> {
    Cause::ListLength.unless(text.len() <= TEXT)?;
    let numbers = numbers(text);
    let range = |pair: &&[Number]| pair[0].end + 1 == pair[1].start && text[pair[0].end] == b'-';
    let ranges: Vec<&[Number]> = numbers.windows(2).filter(range).collect();
    let over = numbers.iter().find(|number| number.value > NUMBER);
    let falls = ranges.iter().find(|range| range[1].value < range[0].value);
    let offences = [
        breaks(text).map(|at| Cause::ListShape.at(at)),
        over.map(|number| Cause::ListNumber.at(number.start)),
        falls.map(|range| Cause::ListRange.at(range[1].start)),
    ];
    match offences.into_iter().flatten().min_by_key(|offence| offence.place) {
        Some(lowest) => Err(lowest),
        None => {
            let alone = numbers.iter().map(|number| set::between(number.value, number.value));
            let ranges = ranges.iter().map(|range| set::between(range[0].value, range[1].value));
            Ok(alone.chain(ranges).fold(0, |set, item| set | item))
        }
    }
}

/// Where a byte is looked at.
#[derive(Clone, Copy, PartialEq, Eq)]
enum At {
    Front,
    Comma,
    First,
    Dash,
    Last,
}

/// The first byte that no list could have there, or the length of a text that stops short.
fn breaks(text: &[u8]) -> Option<usize> {
    let mut at = At::Front;
    for (place, byte) in text.iter().enumerate() {
        at = match (at, byte) {
            (At::Front | At::Comma | At::First, b'0'..=b'9') => At::First,
            (At::Dash | At::Last, b'0'..=b'9') => At::Last,
            (At::First, b'-') => At::Dash,
            (At::First | At::Last, b',') => At::Comma,
            _ => return Some(place),
        }
    }
    matches!(at, At::Comma | At::Dash).then_some(text.len())
}

/// Digits with none before or behind them, and their value; one over the largest number for any over it.
struct Number {
    start: usize,
    end: usize,
    value: u32,
}

/// All numbers of a text, in their order.
fn numbers(text: &[u8]) -> Vec<Number> {
    let join = |value: u32, byte: &u8| (10 * value + u32::from(byte - b'0')).min(NUMBER + 1);
    let mut end = 0;
    let parts = text.chunk_by(|one, other| one.is_ascii_digit() == other.is_ascii_digit());
    let placed = parts.map(|part| {
        end += part.len();
        (part, end - part.len(), end)
    });
    let digits = placed.filter(|(part, ..)| part[0].is_ascii_digit());
    digits
        .map(|(part, start, end)| Number { start, end, value: part.iter().fold(0, join) })
        .collect()
}
