//! Lists of processors: what was typed, the edges of their rules, what is written, and the sets of partitions.

mod naive;

use naive::{list::is_front, Naive};
use second::answer::{Answer, NO_PLACE};
use second::build::{Build, Member, Partition};
use second::case::Case;
use second::generate::random::Random;
use second::generate::{cases, lists};
use second::list;
use second::order::{Order, Task};
use second::program::{Program, Second};

const PROGRAMS: [&dyn Program; 2] = [&Second, &Naive];

/// What the set holds before a call.
const BEFORE: u64 = 0x0123_4567_89AB_CDEF;

/// Both programs answer alike, and a refusal leaves the set; number, place and set, if it is accepted.
#[track_caller]
fn read(text: &[u8]) -> (u16, u16, u64) {
    let [one, other] = PROGRAMS.map(|program| {
        let mut set = BEFORE;
        (program.read_list(text, &mut set), set)
    });
    assert_eq!(one, other, "{}", text.escape_ascii());
    let (Answer { number, place, count }, set) = one;
    assert_eq!(count, 0);
    assert!(number == 0 || set == BEFORE);
    (number, place, if number == 0 { set } else { 0 })
}

#[track_caller]
fn write(set: u64, room: usize) -> (Answer, Vec<u8>) {
    let [one, other] = PROGRAMS.map(|program| {
        let mut out = vec![9; room];
        (program.write_list(set, &mut out), out)
    });
    assert_eq!(one, other);
    one
}

/// Each text is answered as the table says.
#[test]
fn what_was_typed() {
    for lists::Typed { text, number, place, set } in lists::typed() {
        assert_eq!(read(&text), (number, place, set), "{}", text.escape_ascii());
    }
}

/// The typed lists in the programs' cases are all of them, and no more.
#[test]
fn all_that_was_typed_is_compared() {
    let read = cases::typed().filter(|case| matches!(case, Case::ReadList { .. })).count();
    let write = cases::typed().filter(|case| matches!(case, Case::WriteList { .. })).count();
    let accepted = lists::typed().iter().filter(|typed| typed.number == 0).count();
    assert_eq!((read, write), (lists::typed().len(), accepted));
}

/// Every text of up to seven bytes out of few.
#[test]
fn every_short_text() {
    let bytes = b"036-,x";
    for length in 0..=7 {
        for index in 0..bytes.len().pow(length) {
            let byte = |place| bytes[index / bytes.len().pow(place) % bytes.len()];
            read(&(0..length).map(byte).collect::<Vec<u8>>());
        }
    }
}

/// Where no two bytes make a list of a front, no five do.
#[test]
fn fronts() {
    let bytes = b"0-,x";
    let texts = |most: u32| {
        (0..=most).flat_map(move |length| {
            (0..bytes.len().pow(length)).map(move |index| {
                let byte = |place| bytes[index / bytes.len().pow(place) % bytes.len()];
                (0..length).map(byte).collect::<Vec<u8>>()
            })
        })
    };
    let is_list = |text: &[u8]| list::read(text).is_ok();
    for front in texts(5) {
        let goes_on = texts(5).any(|rest| is_list(&[&front[..], &rest].concat()));
        assert_eq!(goes_on, is_front(&front), "{}", front.escape_ascii());
    }
}

/// A byte of each value in each place of a list.
#[test]
fn every_byte_everywhere() {
    let list = b"0-3,01-10,63";
    for at in 0..list.len() {
        for byte in 0..=255 {
            let mut text = list.to_vec();
            text[at] = byte;
            let (number, place, _) = read(&text);
            let listed = matches!(byte, b'0'..=b'9' | b'-' | b',');
            assert!(listed || (number, place) == (60, at as u16), "{}", text.escape_ascii());
        }
    }
}

/// A number is refused by its value, never by its length; a text over 1,024 bytes by its length, whatever is in it.
#[test]
fn any_length() {
    for zeros in 0..=1_022 {
        let text = |number: &str| ("0".repeat(zeros) + number).into_bytes();
        assert_eq!(read(&text("63")), (0, NO_PLACE, 1 << 63));
        assert_eq!(read(&text("64")), (61, 0, 0));
    }
    for length in [1_025, 2_048, 65_536, 65_537, 66_560, 1_000_000] {
        for byte in *b"0,x-" {
            assert_eq!(read(&vec![byte; length]), (65, NO_PLACE, 0));
        }
    }
}

/// Unsorted or overlapping, a list is the union of its items.
#[test]
fn any_order() {
    let ranges: Vec<(u32, u32)> = (0..64).flat_map(|a| (a..64).map(move |b| (a, b))).collect();
    for &(first, last) in &ranges {
        let set = (first..=last).map(|k| 1 << k).sum();
        assert_eq!(read(format!("{first}-{last}").as_bytes()), (0, NO_PLACE, set));
        let falling: Vec<String> = (first..=last).rev().map(|k| k.to_string()).collect();
        assert_eq!(read(falling.join(",").as_bytes()), (0, NO_PLACE, set));
        let twice = format!("{last},{first}-{last},{first}");
        assert_eq!(read(twice.as_bytes()), (0, NO_PLACE, set));
        let place = first.max(last).to_string().len() as u16 + 1;
        let expected = if first < last { (62, place, 0) } else { (0, NO_PLACE, set) };
        assert_eq!(read(format!("{last}-{first}").as_bytes()), expected);
    }
}

#[test]
fn lists_are_written() {
    let written = |set: u64| String::from_utf8(list::write(set)).unwrap();
    for (set, list) in [
        (0, ""),
        (1, "0"),
        (0x8F, "0-3,7"),
        (3, "0-1"),
        (5, "0,2"),
        (0x0B, "0-1,3"),
        (1 << 63, "63"),
        (3 << 62, "62-63"),
        (u64::MAX, "0-63"),
        (u64::MAX - 1, "1-63"),
        (u64::MAX >> 1, "0-62"),
        (!(1 << 31), "0-30,32-63"),
    ] {
        assert_eq!(written(set), list);
        let (answer, out) = write(set, 20);
        assert_eq!(answer, Answer { number: 0, place: NO_PLACE, count: list.len() as u32 });
        assert_eq!(out, [list.as_bytes(), &[9; 20][list.len()..]].concat());
        if !list.is_empty() {
            let (answer, out) = write(set, list.len() - 1);
            assert_eq!(answer, Answer { number: 12, place: NO_PLACE, count: 0 });
            assert_eq!(out, vec![9; list.len() - 1]);
        }
    }
}

/// A written list gives its set back, and none is longer than the longest.
#[test]
fn lists_come_back() {
    let mut random = Random::new(8);
    for _ in 0..20_000 {
        let set = lists::set(&mut random);
        let text = list::write(set);
        assert!(text.len() <= list::MOST);
        assert_eq!(list::read(&text), Ok(set));
        assert_eq!(write(set, text.len()).1, text);
    }
    let longest = list::write(lists::LONGEST);
    assert_eq!((longest.len(), list::MOST), (121, 121));
}

/// What a partition's set is, and that 12 comes last.
#[test]
fn partitions_sets() {
    let task = Task { m: 2, t: 10, d: 10, c: 4 };
    let order = Order { processors: 64, tasks: vec![task; 3] };
    let places = [(2, 62), (60, 2), (2, 0)];
    let partitions = places.map(|(volume, first)| Partition { volume, first });
    let members = [0, 1, 2].map(|partition| Member { partition, rank: 0, response: 4 });
    let build = Build { processors: 64, partitions: partitions.into(), members: members.into() };
    let (order, mut build) = (order.bytes(), build.bytes());
    let sets = [3 << 62, u64::MAX >> 2 & u64::MAX << 2, 3];
    for program in PROGRAMS {
        for (room, number, count) in [(0, 12, 0), (2, 12, 0), (3, 0, 3), (4, 0, 3)] {
            let mut out = vec![BEFORE; room];
            let answer = program.partition_sets(&order, &build, &mut out);
            assert_eq!(answer, Answer { number, place: NO_PLACE, count });
            let expected = [&sets[..count as usize], &[BEFORE; 4][count as usize..room]].concat();
            assert_eq!(out, expected);
        }
    }
    *build.last_mut().unwrap() ^= 2;
    for program in PROGRAMS {
        let mut out = [BEFORE; 2];
        let answer = program.partition_sets(&order, &build, &mut out);
        assert_eq!((answer, out), (Answer { number: 30, place: 2, count: 0 }, [BEFORE; 2]));
    }
}
