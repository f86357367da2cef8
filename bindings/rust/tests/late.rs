//! The late script: a job of the task that the check names, which finishes after its deadline.

use jefkantu::{check, late, late_into, plan, read_script, run, write_order, write_script};
use jefkantu::{Order, Release};

/// P5: (10, 10, 4), (14, 13, 4), (14, 13, 4) as the members of one partition.
const P5_ROWS: [[u32; 4]; 3] = [[1, 10, 10, 4], [1, 14, 13, 4], [1, 14, 13, 4]];

/// One partition of one processor, ranks 0, 1 and 2, worst responses 7, 11 and 14.
const P5_BUILD: [u8; 17] = [
    0x10, 0x21, 0x81, 0x02, 0x00, //
    0x00, 0x00, 0x00, 0x0E, 0x00, 0x20, 0x00, 0x16, 0x00, 0x40, 0x00, 0x1C,
];

/// Task 2 has no lower member, so B is 0 and all begin at tick 0. Its responses are 12 and 14, its job 1 is the first late
/// one: it comes at 14 and starts at 24. So task 2 comes at 0 and 14, and up to 24 task 0 at 0, 10 and 20, task 1 at 0 and
/// 14.
const P5_SCRIPT: [(u32, u32, u32); 7] =
    [(0, 0, 4), (0, 1, 4), (0, 2, 4), (10, 0, 4), (14, 1, 4), (14, 2, 4), (20, 0, 4)];

fn ordered(rows: impl IntoIterator<Item = [u32; 4]>) -> Vec<u8> {
    write_order(&Order::of(1, rows).unwrap()).unwrap()
}

/// A build of one partition of one processor; the responses stay 0.
fn together(ranks: &[u32]) -> Vec<u8> {
    let header = 1 << 20 | 1 << 13 | (ranks.len() as u32) << 7 | 1;
    let member = |rank: &u32| (rank << 21).to_be_bytes();
    let front = [&header.to_be_bytes()[1..], &[0x02, 0x00]].concat();
    [front, ranks.iter().flat_map(member).collect()].concat()
}

fn releases(records: &[(u32, u32, u32)]) -> Vec<Release> {
    records.iter().map(|&(tick, task, duration)| Release { tick, task, duration }).collect()
}

#[track_caller]
fn shows(order: &[u8], build: &[u8], task: u16, records: &[(u32, u32, u32)]) {
    let refusal = check(order, build).unwrap_err();
    assert_eq!((refusal.number, refusal.place), (29, Some(task)));
    let script = late(order, build).unwrap();
    assert_eq!(read_script(&script).unwrap(), releases(records));
    assert_eq!(write_script(&releases(records)).unwrap(), script);
}

#[test]
fn p5_shows_the_second_job() {
    shows(&ordered(P5_ROWS), &P5_BUILD, 2, &P5_SCRIPT);
    let mut out = [0xA5; 50];
    assert_eq!(late_into(&ordered(P5_ROWS), &P5_BUILD, &mut out), Ok(42));
    assert_eq!(out[42..], [0xA5; 8]);
    assert_eq!(late_into(&ordered(P5_ROWS), &P5_BUILD, &mut out[..42]), Ok(42));
}

/// Of a late task's record the response plays no part, nor do those of the tasks after it.
#[test]
fn a_recorded_response_does_not_matter() {
    let mut build = P5_BUILD;
    build[16] = 0x00;
    shows(&ordered(P5_ROWS), &build, 2, &P5_SCRIPT);
}

/// P6 allows 14 ticks, and that job takes them all: it comes at 14 and finishes at 28.
#[test]
fn p6_runs_the_same_script_in_time() {
    let script = late(&ordered(P5_ROWS), &P5_BUILD).unwrap();
    let mut rows = P5_ROWS;
    rows[2][2] = 14;
    assert_eq!(run(&ordered(rows), &P5_BUILD, &script).unwrap(), [4, 8, 12, 16, 20, 28, 24]);
    assert_eq!(late(&ordered(rows), &P5_BUILD).unwrap_err().number, 63);
}

/// In the sample's build task 2 has a partition of its own.
#[test]
fn the_sample_build_runs_it_too() {
    let script = late(&ordered(P5_ROWS), &P5_BUILD).unwrap();
    let mut rows = P5_ROWS;
    rows[0][0] = 2;
    let order = write_order(&Order::of(4, rows).unwrap()).unwrap();
    let build = plan(&order).unwrap();
    assert_eq!(run(&order, &build, &script).unwrap(), [4, 8, 4, 14, 18, 18, 24]);
    assert_eq!(late(&order, &build).unwrap_err().to_string(), NOT_LATE);
}

const NOT_LATE: &str =
    "refused 63: the build is not refused 29: the check names no late task to show";

/// The lower member with the largest C, lowest number among equals: task 1, though task 2 has the higher priority.
#[test]
fn the_blocker_comes_first() {
    let order = ordered([[1, 10, 5, 3], [1, 100, 100, 4], [1, 100, 90, 4]]);
    shows(&order, &together(&[0, 2, 1]), 0, &[(0, 1, 4), (1, 0, 3)]);
}

/// Lower members with C = 1 make B 0: none of them comes, and all begin at tick 0.
#[test]
fn no_blocker_of_one_tick() {
    let order = ordered(P5_ROWS.into_iter().chain([[1, 100, 100, 1]]));
    let mut build = together(&[0, 1, 2, 3]);
    build[5..13].copy_from_slice(&P5_BUILD[5..13]);
    shows(&order, &build, 2, &P5_SCRIPT);
}

/// With a blocker of C ticks task 0 starts 3C - 1 ticks after tick 1, and up to then task 1 comes C times: C + 2 records.
#[test]
fn the_longest_script() {
    let rows = |run| [[1, 1_000, 1_000, 1], [1, 3, 3, 2], [1, 1_000_000, 1_000_000, run]];
    let build = together(&[1, 0, 2]);
    let records: Vec<_> = [(0, 2, 1_022), (1, 0, 1)]
        .into_iter()
        .chain((0..1_022).map(|i| (1 + 3 * i, 1, 2)))
        .collect();
    shows(&ordered(rows(1_022)), &build, 0, &records);
    assert_eq!(6 * records.len(), Release::MOST_SCRIPT_BYTES);
    assert_eq!(late(&ordered(rows(1_023)), &build).unwrap_err().number, 64);
}

#[test]
fn a_script_is_read_as_it_was_written() {
    let most = Release { tick: 0xF_FFFF, task: 31, duration: 0xF_FFFF };
    for records in [vec![], vec![most], releases(&P5_SCRIPT)] {
        assert_eq!(read_script(&write_script(&records).unwrap()), Some(records));
    }
    assert_eq!(read_script(&[0; 5]), None);
    assert_eq!(read_script(&[0; 7]), None);
    for spare in [1, 2, 4] {
        assert_eq!(read_script(&[0, 0, 0, 0x80, 0, 0x20 | spare]), None);
    }
}
