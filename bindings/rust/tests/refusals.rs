//! Each line of bindings/refusals.txt: its number, its place, and the caller's buffer as it was.

use jefkantu::{check, late_into, partition_sets_into, plan_into, read_list, read_order};
use jefkantu::{read_text_into, run_into, write_columns_into, write_list_into, write_text_into};
use jefkantu::{Cause, Columns, NotRead, Refusal, Set};
use std::collections::BTreeSet;

const ORDER: &str = "108180040001400014000080020001c0001a000080020001c0001a000080";
const BUILD: &str = "108182040002100000000e0020001004000008";
const SCRIPT: &str = "000000800020000010000020000011000018";

/// Bytes in hexadecimal, or those of the sample.
fn bytes(word: &str) -> Vec<u8> {
    let digits = match word {
        "-" => "",
        "order" => ORDER,
        "build" => BUILD,
        "script" => SCRIPT,
        digits => digits,
    };
    let pairs = (0..digits.len()).step_by(2).map(|at| &digits[at..at + 2]);
    pairs.map(|pair| u8::from_str_radix(pair, 16).expect("two digits")).collect()
}

/// Numbers set apart by commas.
fn column(word: &str) -> Vec<u32> {
    let numbers = word.split(',').filter(|&it| it != "-");
    numbers.map(|number| number.parse().expect("a number")).collect()
}

/// A call with a buffer of some length, which it must leave as it was.
#[track_caller]
fn kept<T: Clone + PartialEq + std::fmt::Debug>(
    filler: T,
    room: &str,
    call: impl FnOnce(&mut [T]) -> Result<usize, Refusal>,
) -> Refusal {
    let mut out = vec![filler; room.parse().expect("a length")];
    let before = out.clone();
    let refusal = call(&mut out).expect_err("a refusal");
    assert_eq!(out, before);
    refusal
}

fn planned(order: &[u8], room: &str) -> Refusal {
    kept(0xA5, room, |out| plan_into(order, out))
}

fn checked(order: &[u8], build: &[u8]) -> Refusal {
    check(order, build).expect_err("a refusal")
}

fn ran(order: &[u8], build: &[u8], script: &[u8], room: &str) -> Refusal {
    kept(0xA5A5_A5A5, room, |out| run_into(order, build, script, out))
}

fn written(processors: &str, columns: [&str; 4], room: &str) -> Refusal {
    let [widths, periods, deadlines, runs] = &columns.map(column);
    let columns = Columns { widths, periods, deadlines, runs };
    let processors = processors.parse().expect("a number");
    kept(0xA5, room, |out| write_columns_into(processors, &columns, out))
}

fn text_read(processors: &str, text: &[u8], room: &str) -> Refusal {
    let processors: u32 = processors.parse().expect("a number");
    kept(0xA5, room, |out| match read_text_into(processors, text, out) {
        Err(NotRead::NotHeld(it)) => panic!("{it}"),
        Err(NotRead::Refused(refusal)) => Err(refusal),
        Ok(count) => Ok(count),
    })
}

fn text_written(order: &[u8], room: &str) -> Refusal {
    kept(0xA5, room, |out| write_text_into(order, out))
}

fn shown(order: &[u8], build: &[u8], room: &str) -> Refusal {
    kept(0xA5, room, |out| late_into(order, build, out))
}

fn sets_given(order: &[u8], build: &[u8], room: &str) -> Refusal {
    kept(Set(0xA5A5_A5A5_A5A5_A5A5), room, |out| partition_sets_into(order, build, out))
}

fn list_written(set: &str, room: &str) -> Refusal {
    let set = Set(set.parse().expect("a set"));
    kept(0xA5, room, |out| write_list_into(set, out))
}

/// What each operation that is asked answers.
fn refusals(asked: &[&str]) -> Vec<Refusal> {
    match *asked {
        ["order", order] => {
            let order = bytes(order);
            let read = read_order(&order).expect_err("a refusal");
            let (text, planned) = (text_written(&order, "0"), planned(&order, "0"));
            let (checked, ran) = (checked(&order, &[]), ran(&order, &[], &[0], "0"));
            let (sets, shown) = (sets_given(&order, &[], "0"), shown(&order, &[], "0"));
            vec![read, text, planned, checked, ran, sets, shown]
        }
        ["read_text", processors, text, room] => vec![text_read(processors, &bytes(text), room)],
        ["write_text", order, room] => vec![text_written(&bytes(order), room)],
        ["plan", order, room] => vec![planned(&bytes(order), room)],
        ["write", processors, m, t, d, c, room] => vec![written(processors, [m, t, d, c], room)],
        ["build", order, build] => {
            let (order, build) = (bytes(order), bytes(build));
            let (checked, ran) = (checked(&order, &build), ran(&order, &build, &[0], "0"));
            vec![checked, ran, sets_given(&order, &build, "0")]
        }
        ["run", order, build, script, room] => {
            vec![ran(&bytes(order), &bytes(build), &bytes(script), room)]
        }
        ["late", order, build, room] => vec![shown(&bytes(order), &bytes(build), room)],
        ["sets", order, build, room] => vec![sets_given(&bytes(order), &bytes(build), room)],
        ["write_list", set, room] => vec![list_written(set, room)],
        ["read_list", text] => vec![read_list(bytes(text)).expect_err("a refusal")],
        _ => panic!("{asked:?} asks nothing"),
    }
}

#[test]
fn every_number_comes_through_with_its_place() {
    let mut seen = BTreeSet::new();
    for line in include_str!("../../refusals.txt").lines().filter(|line| !line.starts_with('#')) {
        let case = line.split('#').next().unwrap_or_default();
        let words: Vec<_> = case.split_whitespace().collect();
        let number = words[0].parse().expect("a number");
        let place = (words[1] != "-").then(|| words[1].parse().expect("a place"));
        for refusal in refusals(&words[2..]) {
            assert_eq!((refusal.number, refusal.place), (number, place), "{line}");
            let cause = Cause::numbered(number).expect("a line of the table");
            assert_eq!(refusal.words(), cause.words);
            assert!(place.is_none() || cause.place.is_some(), "{line}");
        }
        seen.insert(number);
    }
    // 28 is proved impossible.
    let all: BTreeSet<_> = Cause::all().map(|it| it.number).filter(|&it| it != 28).collect();
    assert_eq!(seen, all);
}
