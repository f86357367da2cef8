//! The order form's text: what was typed, the edges of its rules, and what is written.

mod naive;

use naive::Naive;
use second::answer::{Answer, NO_PLACE};
use second::case::Case;
use second::generate::{cases, texts};
use second::order::{Order, Task};
use second::program::{Program, Second};

const PROGRAMS: [&dyn Program; 2] = [&Second, &Naive];

fn rows(rows: &[[u32; 4]]) -> Vec<u8> {
    let tasks = rows.iter().map(|&[m, t, d, c]| Task { m, t, d, c });
    Order { processors: 4, tasks: tasks.collect() }.bytes()
}

/// Both programs answer alike, and a refusal changes no byte; the order, if it is accepted.
#[track_caller]
fn read(processors: u32, text: &[u8], number: u16, place: u16) -> Vec<u8> {
    let mut read = PROGRAMS.map(|program| {
        let mut out = vec![9; Order::MOST];
        let answer = program.read_text(processors, text, &mut out);
        assert_eq!((answer.number, answer.place), (number, place), "{}", text.escape_ascii());
        assert!(out[answer.count as usize..].iter().all(|&byte| byte == 9));
        out.truncate(answer.count as usize);
        out
    });
    assert_eq!(read[0], read[1]);
    std::mem::take(&mut read[0])
}

#[track_caller]
fn reads_as(text: &[u8], numbers: &[[u32; 4]]) {
    assert_eq!(read(4, text, 0, NO_PLACE), rows(numbers));
}

#[track_caller]
fn write(order: &[u8], room: usize) -> (Answer, Vec<u8>) {
    let [one, other] = PROGRAMS.map(|program| {
        let mut out = vec![9; room];
        (program.write_text(order, &mut out), out)
    });
    assert_eq!(one, other);
    one
}

/// Each text is answered as the table says.
#[test]
fn what_was_typed() {
    for texts::Typed { processors, text, number, place } in texts::typed() {
        read(processors, &text, number, place);
    }
}

/// The typed texts in the programs' cases are all of them, and no more.
#[test]
fn all_that_was_typed_is_compared() {
    let read = cases::typed().filter(|case| matches!(case, Case::ReadText { .. })).count();
    let accepted = texts::typed().iter().filter(|typed| typed.number == 0).count();
    let write = cases::typed().filter(|case| matches!(case, Case::WriteText { .. })).count();
    assert_eq!((read, write), (texts::typed().len(), accepted));
}

/// 7,5 is 750 ticks and 0.01 is 1.
#[test]
fn times_in_ticks() {
    reads_as(b"1;7,5;7,5;7,5\n", &[[1, 750, 750, 750]]);
    reads_as(b"1;7.50;7.5;7,50\n", &[[1, 750, 750, 750]]);
    reads_as(b"1;75;75;75\n", &[[1, 7_500, 7_500, 7_500]]);
    reads_as(b"1;0.01;0,01;0.01\n", &[[1, 1, 1, 1]]);
    reads_as(b"1;0.1;0,10;00.1\n", &[[1, 10, 10, 10]]);
    reads_as(b"1;10000;10000.0;10000.00\n", &[[1, 1_000_000, 1_000_000, 1_000_000]]);
    reads_as(b"3;0.14;0.13;0.04\n2;1;0,9;0.8\n", &[[3, 14, 13, 4], [2, 100, 90, 80]]);
}

/// A number of any length is refused by its value alone, and lines are counted whatever is in them.
#[test]
fn any_length() {
    let zeros = vec![b'0'; 1_000_000];
    let around = |before: &[u8], after: &[u8]| [before, &zeros, after].concat();
    let expected = rows(&[[1, 750, 750, 750]]);
    assert_eq!(read(4, &around(b"", b"1;7,5;7,5;7,5\n"), 0, NO_PLACE), expected);
    assert_eq!(read(4, &around(b"1;7,5;7,5;", b"7,5\n"), 0, NO_PLACE), expected);
    read(4, &around(b"1;1;1;1", b"\n"), 51, 0);
    read(4, &around(b"1;1;1;1.", b"\n"), 50, 0);
    read(4, &around(b"1;1;1;1\n", b""), 50, 1);
    for (lines, number, place) in [(32, 50, 0), (33, 52, NO_PLACE), (1_000_000, 52, NO_PLACE)] {
        read(0, &vec![b'\n'; lines], number, place);
    }
    for digits in 1..70 {
        let period = format!("1;{}10485.75;1;1\n", "0".repeat(digits));
        read(4, period.as_bytes(), 8, 0);
        let deadline = format!("1;1;{};1\n", "9".repeat(digits));
        read(4, deadline.as_bytes(), if digits < 5 { 9 } else { 51 }, 0);
    }
}

/// A byte of each value in each place of a line: only a digit for a digit, and a comma for a point, can be accepted.
#[test]
fn every_byte_everywhere() {
    let line = b"1;2,5;2.50;2\n";
    for at in 0..line.len() {
        for byte in 0..=255 {
            let mut text = line.to_vec();
            text[at] = byte;
            let [one, other] =
                PROGRAMS.map(|program| program.read_text(4, &text, &mut [0; Order::MOST]));
            assert_eq!(one, other, "{}", text.escape_ascii());
            let alike = match line[at] {
                b'0'..=b'9' => byte.is_ascii_digit(),
                b',' | b'.' => byte.is_ascii_digit() || matches!(byte, b',' | b'.'),
                old => byte == old,
            };
            assert!(one.number == 50 || alike, "{}", text.escape_ascii());
        }
    }
}

/// The refusals of reading come in turn: 52, 50, 51, 3, 4, 7 to 10, 12.
#[test]
fn order_of_refusals() {
    let short = |processors, text: &[u8]| {
        let mut out = [9; 11];
        let answer = second::read_text(processors, text, &mut out);
        assert_eq!(out, [9; 11]);
        (answer.number, answer.place)
    };
    assert_eq!(short(0, &b"x\n".repeat(33)), (52, NO_PLACE));
    assert_eq!(short(0, b"1048576;1;1;1\nx\n"), (51, 0));
    assert_eq!(short(0, b"1048576;1;1;1"), (50, 0));
    assert_eq!(short(0, b"1048575;0;0;0\n"), (3, NO_PLACE));
    assert_eq!(short(0, b""), (3, NO_PLACE));
    assert_eq!(short(64, b""), (4, NO_PLACE));
    assert_eq!(short(64, b"1;1;1;1\n65;0;0;0\n"), (7, 1));
    assert_eq!(short(64, b"64;10000.01;10485.75;0\n"), (8, 0));
    assert_eq!(short(64, b"64;1;1.01;1.02\n"), (9, 0));
    assert_eq!(short(64, b"64;1;1;1.01\n"), (10, 0));
    assert_eq!(short(64, b"64;1;1;1\n"), (12, NO_PLACE));
}

#[test]
fn texts_are_written() {
    let order = rows(&[[4, 1_000_000, 750, 1], [1, 110, 101, 100]]);
    let text = b"4;10000.00;7.50;0.01\n1;1.10;1.01;1.00\n";
    let (answer, out) = write(&order, 50);
    assert_eq!(answer, Answer { number: 0, place: NO_PLACE, count: text.len() as u32 });
    assert_eq!(out, [&text[..], &[9; 50][text.len()..]].concat());
    let (answer, out) = write(&order, text.len() - 1);
    assert_eq!(answer, Answer { number: 12, place: NO_PLACE, count: 0 });
    assert_eq!(out, vec![9; text.len() - 1]);
    assert_eq!(write(&order[..2], 0).0.number, 1);
    assert_eq!(write(&rows(&[[5, 1, 1, 1]]), 0).0.number, 7);
}

/// The longest text has 960 bytes.
#[test]
fn longest_text() {
    let task = Task { m: 64, t: 1_000_000, d: 1_000_000, c: 1_000_000 };
    let order = Order { processors: 64, tasks: vec![task; 32] };
    assert_eq!(write(&order.bytes(), 960).0.count, 960);
    assert_eq!(write(&order.bytes(), 959).0.number, 12);
    assert_eq!(second::text::MOST, 960);
}
