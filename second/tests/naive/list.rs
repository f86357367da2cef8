//! Lists by their definition: every continuation is tried, every place is looked at, sets are sets.

use super::text::{bare, is_over};
use super::{Result, NONE};
use std::collections::BTreeSet;

/// The processors of a word.
pub fn members(word: u64) -> BTreeSet<u64> {
    (0..64).filter(|&k| word / 2u64.pow(k as u32) % 2 == 1).collect()
}

/// The word of some processors.
pub fn word(members: &BTreeSet<u64>) -> u64 {
    members.iter().map(|&k| 2u64.pow(k as u32)).sum()
}

/// The runs that cannot be longer, by rising number, each as it is written.
pub fn written(set: &BTreeSet<u64>) -> String {
    let mut items: Vec<String> = Vec::new();
    for first in 0..64 {
        for last in first..64 {
            let all = (first..=last).all(|k| set.contains(&k));
            let before = first > 0 && set.contains(&(first - 1));
            if all && !before && !set.contains(&(last + 1)) {
                let alone = first == last;
                items.push(if alone { first.to_string() } else { format!("{first}-{last}") });
            }
        }
    }
    items.join(",")
}

fn is_number(bytes: &[u8]) -> bool {
    !bytes.is_empty() && bytes.iter().all(u8::is_ascii_digit)
}

/// An item's numbers, as digits; a number alone is both.
fn item(bytes: &[u8]) -> Option<(&[u8], &[u8])> {
    let parts: Vec<&[u8]> = bytes.split(|&byte| byte == b'-').collect();
    match parts[..] {
        [alone] if is_number(alone) => Some((alone, alone)),
        [first, last] if is_number(first) && is_number(last) => Some((first, last)),
        _ => None,
    }
}

/// The items of a text, if it is a list.
fn items(text: &[u8]) -> Option<Vec<(&[u8], &[u8])>> {
    match text {
        [] => Some(Vec::new()),
        _ => text.split(|&byte| byte == b',').map(item).collect(),
    }
}

/// Whether some list begins so: something of at most two bytes is tried behind it.
pub fn is_front(bytes: &[u8]) -> bool {
    let ends =
        [&b""[..], b"0", b"-", b",", b"00", b"0-", b"0,", b"-0", b"--", b"-,", b",0", b",-", b",,"];
    ends.iter().any(|end| items(&[bytes, end].concat()).is_some())
}

/// The number that stands at a place with all its digits.
fn number_at(text: &[u8], place: usize) -> Option<&[u8]> {
    let digit = |place: usize| text.get(place).is_some_and(u8::is_ascii_digit);
    let mut end = place;
    while digit(end) {
        end += 1;
    }
    let begins = place == 0 || !digit(place - 1);
    (begins && end > place).then(|| &text[place..end])
}

/// Whether a range's second number stands at a place, and is below the first.
fn falls_at(text: &[u8], place: usize) -> bool {
    let dashed = place > 0 && text[place - 1] == b'-';
    let (true, Some(last)) = (dashed, number_at(text, place)) else { return false };
    (0..place).any(|start| {
        let first = number_at(text, start);
        first.is_some_and(|first| start + first.len() + 1 == place && is_over(first, bare(last)))
    })
}

/// The processors of a list: 65, then at the lowest place 60, 61 or 62.
pub fn read(text: &[u8]) -> Result<BTreeSet<u64>> {
    if text.len() > 1_024 {
        return Err((65, NONE));
    }
    let list = items(text);
    for place in 0..=text.len() {
        let stops = place == text.len() && list.is_none();
        if stops || place < text.len() && !is_front(&text[..=place]) {
            return Err((60, place as u64));
        }
        if number_at(text, place).is_some_and(|digits| is_over(digits, b"63")) {
            return Err((61, place as u64));
        }
        if falls_at(text, place) {
            return Err((62, place as u64));
        }
    }
    let value = |digits: &[u8]| -> u64 {
        let digits = String::from_utf8(bare(digits).to_vec()).unwrap();
        format!("0{digits}").parse().unwrap()
    };
    let items = list.unwrap_or_default();
    Ok(items.into_iter().flat_map(|(first, last)| value(first)..=value(last)).collect())
}
