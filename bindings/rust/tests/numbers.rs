//! Numbers that do not fit: each is refused with its row and its field, and none is cut.

use jefkantu::{column, read_text, write_order, write_script};
use jefkantu::{NotHeld, NotRead, Order, Release, Set, Task, Whole};

/// 2^32 + 75
const LARGE: u64 = (1 << 32) + 75;

const TASK_FIELDS: [&str; 4] = ["width", "period", "deadline", "run"];
const RECORD_FIELDS: [&str; 3] = ["tick", "task", "duration"];

#[track_caller]
fn told<T: std::fmt::Debug>(
    not_held: Result<T, NotHeld>,
    row: Option<usize>,
    field: &str,
    number: &str,
) {
    let it = not_held.expect_err("a number that its field does not hold");
    assert_eq!((it.row, it.field, it.number.as_str()), (row, field, number));
}

/// M beside a text that is refused too: the number is told first, since it never gets there.
fn beside_text(number: impl Whole) -> Result<Vec<u8>, NotHeld> {
    match read_text(number, "7;5\n") {
        Err(NotRead::NotHeld(it)) => Err(it),
        other => panic!("{other:?}"),
    }
}

/// A number in each place where one comes in.
fn refused_everywhere<N: Whole + From<u8>>(number: N) {
    let (four, text) = (N::from(4), number.to_string());
    told(Order::of(number, [[four; 4]]), None, "processors", &text);
    told(beside_text(number), None, "processors", &text);
    for (at, field) in TASK_FIELDS.into_iter().enumerate() {
        let mut row = [four; 4];
        row[at] = number;
        told(Task::of(row[0], row[1], row[2], row[3]), None, field, &text);
        told(Order::of(four, [[four; 4], row]), Some(1), field, &text);
        told(column(field, [four, four, number]), Some(2), field, &text);
    }
    for (at, field) in RECORD_FIELDS.into_iter().enumerate() {
        let mut record = [four; 3];
        record[at] = number;
        told(Release::of(record[0], record[1], record[2]), None, field, &text);
    }
    told(Set::of([four, number]), Some(1), "processor", &text);
}

#[test]
fn two_to_the_32_and_75() {
    refused_everywhere(LARGE);
    refused_everywhere(LARGE as i64);
    refused_everywhere(u128::from(LARGE));
    refused_everywhere(LARGE as usize);
}

#[test]
fn minus_one() {
    refused_everywhere(-1i16);
    refused_everywhere(-1i32);
    refused_everywhere(-1i64);
    refused_everywhere(-1i128);
}

/// Where a number comes as text, the caller parses it, and whole numbers have no point and no comma. As a value neither
/// compiles: see the examples that must not at [`Whole`].
#[test]
fn seven_and_a_half() {
    for text in ["7.5", "7,5", "", " 7", "4294967371", "-1"] {
        assert!(text.parse::<u32>().is_err(), "{text}");
    }
}

#[test]
fn numbers_that_fit_are_judged_by_the_library() {
    for (at, number) in [7, 8, 9, 10].into_iter().enumerate() {
        let mut row = [1, 10, 10, 10];
        row[at] = u64::from(u32::MAX);
        let refusal = write_order(&Order::of(4, [row]).unwrap()).unwrap_err();
        assert_eq!((refusal.number, refusal.place), (number, Some(0)));
    }
    let refusal = write_order(&Order::of(u32::MAX, [[1, 10, 10, 10]]).unwrap()).unwrap_err();
    assert_eq!((refusal.number, refusal.place), (3, None));
    assert_eq!(read_text(u32::MAX, "1;1;1;1\n"), Err(NotRead::Refused(refusal)));
}

#[test]
fn numbers_over_their_field_make_no_script() {
    let most = Release { tick: 0xF_FFFF, task: 31, duration: 0xF_FFFF };
    assert_eq!(write_script(&[most]).unwrap(), [0xFF, 0xFF, 0xFF, 0xFF, 0xFF, 0xF8]);
    for (over, field, number) in [
        (Release { tick: 0x10_0000, ..most }, "tick", "1048576"),
        (Release { task: 32, ..most }, "task", "32"),
        (Release { duration: 0x10_0000, ..most }, "duration", "1048576"),
    ] {
        told(write_script(&[most, over]), Some(1), field, number);
        told(Release::of(over.tick, over.task, over.duration), None, field, number);
    }
}

#[test]
fn processors_over_63_are_in_no_set() {
    assert_eq!(Set::of([63u8, 0, 63]), Ok(Set(1 << 63 | 1)));
    for number in [64, 255, i64::from(u32::MAX), 1 << 32, -64, i64::MIN] {
        told(Set::of([0, 1, number]), Some(2), "processor", &number.to_string());
    }
}

#[test]
fn the_words_name_row_field_and_number() {
    let told = Order::of(4, [[1, 10, 10, 4], [1, 10, -1, 4]]).unwrap_err().to_string();
    assert_eq!(told, "task 1, deadline: -1 is not from 0 to 4294967295");
    let over = Release { tick: 0, task: 32, duration: 1 };
    let told = write_script(&[over]).unwrap_err().to_string();
    assert_eq!(told, "record 0, task: 32 is not from 0 to 31");
    let told = Set::of([7, 64]).unwrap_err().to_string();
    assert_eq!(told, "item 1, processor: 64 is not from 0 to 63");
    let told = read_text(LARGE, "").unwrap_err().to_string();
    assert_eq!(told, "order, processors: 4294967371 is not from 0 to 4294967295");
    assert_eq!(
        Task::of(1, 1, 1, LARGE).unwrap_err().to_string(),
        "task, run: 4294967371 is not from 0 to 4294967295"
    );
}
