//! Random sets of processors and lists, sound and damaged, and the lists that were typed.

use super::random::Random;
use crate::answer::NO_PLACE;
use crate::{list, set};

/// Bytes that a list has, next to them in the table of characters, or typed in their stead.
const BYTES: &[u8] = b"0123456789--,,;./:+~_ \n\r\t\0\xAD\xFF";

/// What may stand behind a list, and is none of it: line feeds, strides, the beginning of another item.
const ENDS: &[&[u8]] = &[b"\n", b",", b"-", b"/2", b":1/2", b" ", b"\0", b"\r\n"];

/// A set of one of several kinds.
pub fn set(random: &mut Random) -> u64 {
    let shift = random.below(64);
    match random.below(12) {
        0 => random.pick(&[0, 1, 1 << 63, 1 << 63 | 1, 3, 3 << 62, u64::MAX >> 1, u64::MAX - 1]),
        1 => u64::MAX,
        2 => random.pick(&ALTERNATING) << (shift % 8),
        3 => LONGEST.rotate_left(shift),
        4 => random.word() & random.word() & random.word(),
        5 => random.word() | random.word() | random.word(),
        6 => 1 << shift,
        7 => !(1 << shift),
        8 => random.word() >> shift,
        9 => random.word(),
        _ => {
            let runs = random.between(1, 6);
            (0..runs).map(|_| item(random)).fold(0, |set, (a, b)| set | set::between(a, b))
        }
    }
}

/// One, two, three or four processors, then as many not, or one not.
const ALTERNATING: [u64; 4] = [u64::MAX / 3, u64::MAX / 5, u64::MAX / 15 * 7, u64::MAX / 17];

/// The set of the longest list: pairs with one between them.
pub const LONGEST: u64 = 0xB6DB_6DB6_DB6D_B6DB;

/// A first and a last number.
fn item(random: &mut Random) -> (u32, u32) {
    let first = random.below(64);
    let last = match random.below(4) {
        0 => first,
        1 => (first + 1).min(63),
        _ => random.between(first, 63),
    };
    (first, last)
}

/// A text that about is a list.
pub fn text(random: &mut Random) -> Vec<u8> {
    let mut items: Vec<(u32, u32)> = set::runs(set(random)).collect();
    match random.below(4) {
        0 => random.shuffle(&mut items),
        1 => {
            let more = random.spread(1, 20);
            items.extend((0..more).map(|_| item(random)));
            random.shuffle(&mut items);
        }
        _ => {}
    }
    let mut parts: Vec<String> =
        items.into_iter().map(|(first, last)| spelt(random, first, last)).collect();
    for _ in 0..random.pick(&[0, 0, 0, 1, 1, 2]) {
        let at = random.below(parts.len() as u32 + 1) as usize;
        parts.insert(at, wrong(random));
    }
    let mut text = parts.join(",").into_bytes();
    if random.one_in(3) {
        damage(random, &mut text);
    }
    if random.one_in(8) {
        lengthen(random, &mut text);
    }
    text
}

/// An item in one of its spellings.
fn spelt(random: &mut Random, first: u32, last: u32) -> String {
    let mut number = |value: u32| match random.below(64) {
        0 => "0".repeat(random.spread(1, 400) as usize) + &value.to_string(),
        1..=4 => format!("{value:0width$}", width = random.between(2, 5) as usize),
        _ => value.to_string(),
    };
    let (low, high) = (number(first), number(last));
    if first == last && !random.one_in(8) {
        low
    } else {
        format!("{low}-{high}")
    }
}

/// An item that is read by its shape, with a number over 63 or a range that falls.
fn wrong(random: &mut Random) -> String {
    let (low, high) = item(random);
    let over = match random.below(6) {
        0 => "64".into(),
        1 => format!("{:03}", random.between(64, 66)),
        2 => (u64::from(random.pick(&[64, 128, 256, u32::MAX])) + u64::from(low)).to_string(),
        3 => (u128::from(random.pick(&[u64::MAX, 1 << 32, 1 << 63])) + 1 + u128::from(low))
            .to_string(),
        4 => random.between(64, 1_000).to_string(),
        _ => {
            let digit = random.between(1, 9).to_string();
            digit + &"0".repeat(random.spread(1, 400) as usize) + &low.to_string()
        }
    };
    match random.below(8) {
        0 => over,
        1 => format!("{low}-{over}"),
        2 => format!("{over}-{low}"),
        3 => format!("{over}-{over}"),
        4 => format!("{}-{low}", low + 1),
        _ => format!("{}-{}", spelt(random, high.max(1), high.max(1)), random.below(high.max(1))),
    }
}

/// Damages a text, mostly in one byte.
fn damage(random: &mut Random, text: &mut Vec<u8>) {
    let at = random.below(text.len() as u32 + 1) as usize;
    let byte = if random.one_in(8) { random.word() as u8 } else { random.pick(BYTES) };
    let end = text.len().min(at + 1);
    match random.below(8) {
        0 => text.truncate(at),
        1 => text.extend(random.pick(ENDS)),
        2 => drop(text.splice(at..at, [byte])),
        3 => drop(text.drain(at..end)),
        4 => {
            let length = random.spread(0, 100);
            *text = (0..length).map(|_| random.pick(BYTES)).collect();
        }
        _ => drop(text.splice(at..end, [byte])),
    }
}

/// Lengthens a text to about the most bytes, now and then to more than 16 bits count.
fn lengthen(random: &mut Random, text: &mut Vec<u8>) {
    let length = match random.below(64) {
        0 => 65_536 + random.pick(&[0, 1, 5, list::TEXT, list::TEXT + 1]),
        1..=15 => random.between(list::TEXT as u32 + 1, 2_000) as usize,
        _ => list::TEXT - 4 + random.below(8) as usize,
    };
    let more = length.saturating_sub(text.len());
    let more: Vec<u8> = match random.below(4) {
        0 => vec![b'0'; more],
        1 => b"0-3,7,".iter().copied().cycle().take(more).collect(),
        2 => (0..more).map(|place| if place % 2 == 0 { b'7' } else { b',' }).collect(),
        _ => (0..more).map(|place| if place + 1 == more { b',' } else { b'0' }).collect(),
    };
    text.splice(0..0, more);
}

/// A text that was typed, and how it is answered.
pub struct Typed {
    pub text: Vec<u8>,
    pub number: u16,
    pub place: u16,
    pub set: u64,
}

/// The texts on the edge of a rule.
pub fn typed() -> Vec<Typed> {
    let read = READ.iter().map(|&(text, set)| (text.to_vec(), 0, NO_PLACE, set));
    let refused = REFUSED.iter().flat_map(|&(number, place, texts)| {
        texts.iter().map(move |text| (text.to_vec(), number, place, 0))
    });
    let long = LONG.iter().map(|&(before, part, times, behind, (number, place, set))| {
        ([before, &part.repeat(times), behind].concat(), number, place, set)
    });
    let all = read.chain(refused).chain(long);
    all.map(|(text, number, place, set)| Typed { text, number, place, set }).collect()
}

/// Texts that are lists, and their sets.
const READ: &[(&[u8], u64)] = &[
    (b"", 0),
    (b"0", 1),
    (b"63", 1 << 63),
    (b"0-63", u64::MAX),
    (b"0-3,7", 0x8F),
    (b"7,0-3", 0x8F),
    (b"3,2,1,0,7", 0x8F),
    (b"0-2,1-3,7,7", 0x8F),
    (b"0-3,0-3,7-7", 0x8F),
    (b"00-03,0007", 0x8F),
    (b"7-7", 0x80),
    (b"0-1", 3),
    (b"62-63", 3 << 62),
    (b"0,63", 1 << 63 | 1),
    (b"31,32", 3 << 31),
    (b"000-0000000000000000000000000000000063", u64::MAX),
    (b"0-1,3-4,6-7,9-10,12-13,15-16,18-19,21-22,24-25,27-28,30-31,33-34,36-37,39-40,42-43,45-46,48-49,51-52,54-55,57-58,60-61,63", LONGEST),
];

/// Number, place, and the texts that are answered so.
const REFUSED: &[(u16, u16, &[&[u8]])] = &[
    (
        60,
        0,
        &[b",", b"-", b"-1", b"-1,64", b" 1", b"\n", b"x,64", b"+1", b"\xFF", b"\0", b"/", b":"],
    ),
    (60, 1, &[b"1 ", b"1\n", b"1/2", b"1;2", b"1\0", b"1:", b"1.", b"1x,64", b"9\r\n"]),
    (60, 2, &[b"1,", b"1-", b"1,,2", b"1--2", b"1-,2", b"1,-2", b"1- 2", b"1, 2", b"1,x", b"1-\n"]),
    (60, 3, &[b"0-7/2", b"0-7:1/2", b"0-7\n", b"1-2-3", b"0-3-64", b"1-1-0", b"1,2\n", b"1,2 ,3"]),
    (60, 4, &[b"0-3,", b"0-3,,7", b"0-3,\n", b"0-3,-64", b"3-63-2", b"063,,", b"0,1-", b"1,6-"]),
    (
        61,
        0,
        &[b"64", b"64x", b"064", b"64,x", b"64-", b"64-3", b"64-64", b"100-99", b"65-64", b"0640"],
    ),
    (61, 0, &[b"256", b"4294967296", b"4294967359", b"18446744073709551616", b"64-63-62"]),
    (
        61,
        2,
        &[b"1,64", b"1,0064", b"1-64", b"7-064", b"5-99x", b"0,99-1", b"3-4294967299", b"3-256"],
    ),
    (61, 3, &[b"63,64", b"63-64", b"00-64", b"07,99"]),
    (62, 2, &[b"1-0", b"7-3", b"7-06", b"7-3x", b"7-3-64", b"7-3,64", b"7-3,", b"3-2-1", b"9-8\n"]),
    (62, 3, &[b"63-62", b"10-9", b"07-6", b"63-0", b"10-09,99"]),
    (62, 6, &[b"0-3,7-6", b"3,2,1-0", b"10,12-11,64"]),
];

/// A front, a part so many times, what stands behind it, and the number, place and set.
type Long = (&'static [u8], &'static [u8], usize, &'static [u8], (u16, u16, u64));

const LONG: &[Long] = &[
    (b"", b"0", 1_024, b"", (0, NO_PLACE, 1)),
    (b"", b"0", 1_025, b"", (65, NO_PLACE, 0)),
    (b"", b"0", 1_022, b"63", (0, NO_PLACE, 1 << 63)),
    (b"", b"0", 1_023, b"63", (65, NO_PLACE, 0)),
    (b"", b"0", 1_022, b"64", (61, 0, 0)),
    (b"", b"0", 500, b"7-7", (0, NO_PLACE, 0x80)),
    (b"7-", b"0", 500, b"6", (62, 2, 0)),
    (b"7-", b"0", 500, b"64", (61, 2, 0)),
    (b"", b"9", 1_024, b"", (61, 0, 0)),
    (b"1-", b"9", 700, b"", (61, 2, 0)),
    (b"0-3", b",7", 510, b"", (0, NO_PLACE, 0x8F)),
    (b"0-3", b",7", 510, b",", (60, 1_024, 0)),
    (b"0-3", b",7", 510, b"\n", (60, 1_023, 0)),
    (b"0-3", b",7", 511, b"", (65, NO_PLACE, 0)),
    (b"", b"3,", 510, b"63-4", (62, 1_023, 0)),
    (b"", b"3,", 511, b"64", (61, 1_022, 0)),
    (b"", b",", 1_024, b"", (60, 0, 0)),
    (b"", b",", 1_025, b"", (65, NO_PLACE, 0)),
    (b"", b"x", 2_000, b"", (65, NO_PLACE, 0)),
];
