//! Random texts of the order form, sound and damaged, and the ones that were typed.

use super::random::Random;
use crate::answer::NO_PLACE;
use crate::order::{Order, Task};

/// Bytes that a text has, next to them in the table of characters, or typed in their stead.
const BYTES: &[u8] = b"0123456789,.;\n\r\t +-/:e'\0\xB7\xFF";

/// M and a text that about has an order's numbers, in one of their spellings.
pub fn draw(random: &mut Random, order: &Order) -> (u32, Vec<u8>) {
    let mut processors = order.processors;
    let mut rows: Vec<[u32; 4]> =
        order.tasks.iter().map(|&Task { m, t, d, c }| [m, t, d, c]).collect();
    match random.below(6) {
        0 => processors = random.pick(&[0, 65, 128 + processors, u32::MAX]),
        1 => rows = rows.into_iter().cycle().take(random.pick(&[0, 0, 31, 32, 33, 64])).collect(),
        2 | 3 => {
            let row = random.below(rows.len() as u32) as usize;
            let number = &mut rows[row][random.below(4) as usize];
            let (more, less) = (*number + 1, *number - 1);
            *number = random.pick(&[0, more, less, 1_000_001, 1_048_575, 1_048_576, u32::MAX]);
        }
        _ => {}
    }
    let mut text = rows.into_iter().flat_map(|row| line(random, row)).collect();
    if random.one_in(3) {
        damage(random, &mut text);
    }
    (processors, text)
}

/// A line of these numbers.
fn line(random: &mut Random, [m, t, d, c]: [u32; 4]) -> Vec<u8> {
    let mut line = zeros(random) + &m.to_string();
    for ticks in [t, d, c] {
        line += &format!(";{}{}", zeros(random), time(random, ticks));
    }
    (line + "\n").into_bytes()
}

/// A time in milliseconds: two decimals, or fewer where that is the same.
fn time(random: &mut Random, ticks: u32) -> String {
    let (whole, rest) = (ticks / 100, ticks % 100);
    let mark = random.pick(&[',', '.']);
    match (rest, rest % 10, random.one_in(2)) {
        (0, _, true) => format!("{whole}"),
        (_, 0, true) => format!("{whole}{mark}{}", rest / 10),
        _ => format!("{whole}{mark}{rest:02}"),
    }
}

/// Mostly none, now and then more than 16 bits count.
fn zeros(random: &mut Random) -> String {
    let count = match random.below(4_096) {
        0 => random.between(65_530, 65_540),
        1..=20 => random.spread(1, 400),
        21..=400 => random.between(1, 3),
        _ => 0,
    };
    "0".repeat(count as usize)
}

/// Damages a text.
fn damage(random: &mut Random, text: &mut Vec<u8>) {
    let at = random.below(text.len() as u32 + 1) as usize;
    match random.below(8) {
        0 => text.truncate(at),
        1 => drop(text.pop()),
        2 => text.clear(),
        3 => {
            let more = if random.one_in(64) { 65_536 } else { random.between(1, 40) };
            text.extend(vec![b'\n'; more as usize]);
        }
        4 => {
            let length = random.spread(0, 100);
            *text = (0..length).map(|_| random.pick(BYTES)).collect();
        }
        5 => {
            let digit = random.between(b'0'.into(), b'9'.into()) as u8;
            text.splice(at..at, vec![digit; random.spread(1, 400) as usize]);
        }
        _ => {
            let end = text.len().min(at + random.below(3) as usize);
            let new: Vec<u8> = (0..random.below(3)).map(|_| random.pick(BYTES)).collect();
            text.splice(at..end, new);
        }
    }
}

/// A text that was typed beside an M, and how it is answered.
pub struct Typed {
    pub processors: u32,
    pub text: Vec<u8>,
    pub number: u16,
    pub place: u16,
}

/// The texts of the accident, and those on the edge of a rule.
pub fn typed() -> Vec<Typed> {
    let mut typed = Vec::new();
    let mut add = |processors, text: &[u8], number, place| {
        typed.push(Typed { processors, text: text.to_vec(), number, place });
    };
    for &(number, place, texts) in WHOLE {
        texts.iter().for_each(|text| add(4, text, number, place));
    }
    for &(number, place, times) in TIMES {
        let line = |time: &[u8]| [b"1;1;1;1\n1;", time, b";0.01;0.01\n"].concat();
        times.iter().for_each(|time| add(4, &line(time), number, place));
    }
    for &(part, times, rest, (number, place)) in LONG {
        add(4, &[&part.repeat(times), rest].concat(), number, place);
    }
    for &(processors, number) in BESIDE {
        add(processors, b"64;1;1;1\n", number, NO_PLACE);
    }
    add(0, b"", 3, NO_PLACE);
    add(0, &b"x\n".repeat(33), 52, NO_PLACE);
    typed
}

/// Number, place, and the texts that are answered so beside M = 4.
const WHOLE: &[(u16, u16, &[&[u8]])] = &[
    (0, NO_PLACE, &[b"2;0.10;0.10;0.04\n1;0.14;0.13;0.04\n1;0.14;0.13;0.04\n"]),
    (0, NO_PLACE, &[b"4;7,5;7.50;7,50\n0003;0075;007,5;00.01\n"]),
    (0, NO_PLACE, &[b"1;10000;10000.0;10000,00\n"]),
    (4, NO_PLACE, &[b""]),
    (50, 0, &[b"\n", b"\n1;1;1;1\n", b"1;1;1;1", b"1;1;1;1\r\n", b"1;1;1\n"]),
    (50, 0, &[b"1;1;1;1;\n", b"1;1;1;1;1\n", b";;;\n", b"1.0;1;1;1\n", b" 1;1;1;1\n"]),
    (50, 0, &[b"-1;1;1;1\n", b"9999999;9999999;9999999;x\n"]),
    (50, 1, &[b"1;1;1;1\n\n", b"1;1;1;1\n2;1;1;1", b"1;1;1;1\n1;10485.76;1;1"]),
    (51, 0, &[b"9999999;1;1;1\nx\n", b"1048576;1;1;1\n", b"4294967297;1;1;1\n"]),
    (51, 1, &[b"5;99;99;99\n1;10485.76;1;1\n"]),
    (7, 0, &[b"0;1;1;1\n", b"5;1;1;1\n", b"1048575;1;1;1\n"]),
    (7, 1, &[b"1;1;1;1\n5;0;0;0\n"]),
    (9, 0, &[b"1;1;1.01;0\n", b"1;1;0;1\n"]),
    (10, 0, &[b"1;1;1;0\n", b"1;1;1;1,01\n"]),
];

/// Number, place, and the periods of a second line that are answered so.
const TIMES: &[(u16, u16, &[&[u8]])] = &[
    (0, NO_PLACE, &[b"7,5", b"7.50", b"75", b"0.01", b"0,1", b"0000000000000000007.50"]),
    (50, 1, &[b"7,5 ", b" 7,5", b"7,505", b"7,500", b",5", b"7,", b"7.", b".", b"", b"+7"]),
    (50, 1, &[b"-7", b"7;5", b"7,5\r", b"7,\n5", b"7.,5", b"7.5.5", b"7:5", b"7/5", b"7,/"]),
    (50, 1, &[b"7,:5", b"7'5", b"7e2", b"\xB7", b"7\0"]),
    (8, 1, &[b"0", b"0.00", b"10000.01", b"10485.75"]),
    (51, 1, &[b"10485.76", b"10485,8", b"10486", b"42949672.97", b"4294967296.01"]),
    (51, 1, &[b"184467440737095516.17", b"18446744073709551616.01"]),
];

/// A part so many times, a rest, and the number and place.
type Long = (&'static [u8], usize, &'static [u8], (u16, u16));

const LONG: &[Long] = &[
    (b"1;1;1;1\n", 32, b"", (0, NO_PLACE)),
    (b"4;10000.00;10000.00;10000.00\n", 32, b"", (0, NO_PLACE)),
    (b"1;1;1;1\n", 31, b"1;1;1;1", (50, 31)),
    (b"1;1;1;1\n", 31, b"5;1;1;1\n", (7, 31)),
    (b"1;1;1;1\n", 33, b"", (52, NO_PLACE)),
    (b"1;1;1;1\n", 32, b"1", (52, NO_PLACE)),
    (b"\n", 32, b"", (50, 0)),
    (b"\n", 33, b"", (52, NO_PLACE)),
    (b"0", 1_000, b"1;1;1;1\n", (0, NO_PLACE)),
    (b"9", 1_000, b";1;1;1\n", (51, 0)),
];

/// M beside a line of width 64, and the number.
const BESIDE: &[(u32, u16)] = &[(0, 3), (65, 3), (u32::MAX, 3), (64, 0)];
