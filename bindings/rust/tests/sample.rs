//! The sample order of document 01: written, read back, planned, checked and run.

use jefkantu::{check, plan, plan_into, read_order, run, run_into, write_order, write_order_into};
use jefkantu::{write_script, Build, Cause, Member, Order, Partition, Release, Set, Task};

const ORDER: [u8; 30] = [
    0x10, 0x81, 0x80, //
    0x04, 0x00, 0x01, 0x40, 0x00, 0x14, 0x00, 0x00, 0x80, //
    0x02, 0x00, 0x01, 0xC0, 0x00, 0x1A, 0x00, 0x00, 0x80, //
    0x02, 0x00, 0x01, 0xC0, 0x00, 0x1A, 0x00, 0x00, 0x80,
];

const BUILD: [u8; 19] = [
    0x10, 0x81, 0x82, 0x04, 0x00, 0x02, 0x10, //
    0x00, 0x00, 0x00, 0x0E, 0x00, 0x20, 0x00, 0x10, 0x04, 0x00, 0x00, 0x08,
];

fn sample() -> Order {
    let task = |(width, period, deadline, run)| Task { width, period, deadline, run };
    let tasks = [(2, 10, 10, 4), (1, 14, 13, 4), (1, 14, 13, 4)].map(task).to_vec();
    Order { processors: 4, tasks }
}

fn script(records: &[(u32, u32, u32)]) -> Vec<u8> {
    let release = |&(tick, task, duration)| Release { tick, task, duration };
    let releases: Vec<_> = records.iter().map(release).collect();
    write_script(&releases).expect("each number fits its field")
}

#[test]
fn order_is_written_and_read_back() {
    assert_eq!(write_order(&sample()).unwrap(), ORDER);
    assert_eq!(read_order(&ORDER).unwrap(), sample());
    let mut out = [0xA5; 40];
    assert_eq!(write_order_into(&sample(), &mut out), Ok(30));
    assert_eq!((&out[..30], &out[30..]), (&ORDER[..], &[0xA5; 10][..]));
}

#[test]
fn longest_order_is_written_and_read_back() {
    let task = |run| Task { width: 64, period: 1_000_000, deadline: 999_999, run };
    let order = Order { processors: 64, tasks: (1..=32).map(task).collect() };
    let bytes = write_order(&order).unwrap();
    assert_eq!(bytes.len(), Order::MOST_BYTES);
    assert_eq!(read_order(&bytes), Ok(order));
}

#[test]
fn more_tasks_than_a_box_takes() {
    let order = Order { processors: 1, tasks: vec![sample().tasks[1]; 33] };
    assert_eq!(write_order(&order).unwrap_err().number, 4);
}

#[test]
fn p1_build() {
    assert_eq!(plan(&ORDER).unwrap(), BUILD);
    assert_eq!(check(&ORDER, &BUILD), Ok(()));
    let mut out = [0xA5; 30];
    assert_eq!(plan_into(&ORDER, &mut out), Ok(19));
    assert_eq!((&out[..19], &out[19..]), (&BUILD[..], &[0xA5; 11][..]));
}

#[test]
fn longest_build() {
    let task = Task { width: 2, period: 10, deadline: 10, run: 10 };
    let order = write_order(&Order { processors: 64, tasks: vec![task; 32] }).unwrap();
    let bytes = plan(&order).unwrap();
    assert_eq!(bytes.len(), Build::MOST_BYTES);
    let build = Build::read(&order, &bytes).unwrap();
    let partition = |i: u32| Partition { volume: 2, first: 2 * i };
    let member = |partition| Member { partition, rank: 0, response: 10 };
    assert_eq!(build.partitions, (0..32).map(partition).collect::<Vec<_>>());
    assert_eq!(build.tasks, (0..32).map(member).collect::<Vec<_>>());
}

#[test]
fn build_reads_as_the_printer_prints_it() {
    let lines = include_str!("../../../crates/printer/stdout");
    assert_eq!(Build::read(&ORDER, &BUILD).unwrap().to_string(), lines);
}

#[test]
fn p9_finish_ticks() {
    let script = script(&[(0, 1, 4), (1, 0, 4), (1, 2, 3)]);
    assert_eq!(run(&ORDER, &BUILD, &script).unwrap(), [4, 8, 4]);
    let mut out = [7; 5];
    assert_eq!(run_into(&ORDER, &BUILD, &script, &mut out), Ok(3));
    assert_eq!(out, [4, 8, 4, 7, 7]);
}

#[test]
fn shortest_and_longest_script() {
    assert_eq!(run(&ORDER, &BUILD, &[]), Ok(vec![]));
    let releases: Vec<_> = (0..1_025).map(|i| (10 * i, 0, 4)).collect();
    let ticks: Vec<_> = (0..1_024).map(|i| 10 * i + 4).collect();
    assert_eq!(run(&ORDER, &BUILD, &script(&releases[..1_024])), Ok(ticks));
    assert_eq!(run(&ORDER, &BUILD, &script(&releases)).unwrap_err().number, 40);
}

#[test]
fn refusals_speak_in_the_words_of_the_document() {
    let narrow = write_order(&Order { processors: 2, ..sample() }).unwrap();
    let refusal = plan(&narrow).unwrap_err();
    assert_eq!((refusal.number, refusal.place), (11, Some(2)));
    assert_eq!(refusal.to_string(), "refused 11 at task 2: first fit runs out");
    let refusal: Box<dyn std::error::Error> = Box::new(plan(&[]).unwrap_err());
    assert_eq!(refusal.to_string(), "refused 1: order under 3 bytes");
}

#[test]
fn every_line_of_the_table_is_a_cause() {
    let lines =
        include_str!("../../python/causes.txt").lines().filter(|line| !line.starts_with('#'));
    let line = |it: Cause| format!("{} {} {}", it.number, it.place.unwrap_or("-"), it.words);
    assert!(Cause::all().map(line).eq(lines));
}

#[test]
fn limits_are_those_of_the_header() {
    let header = include_str!("../../../include/jefkantu.h");
    for (name, value) in [
        ("ORDER_BYTES", Order::MOST_BYTES),
        ("TEXT_BYTES", Order::MOST_TEXT_BYTES),
        ("BUILD_BYTES", Build::MOST_BYTES),
        ("LIST_BYTES", Set::MOST_LIST_BYTES),
        ("LIST_TEXT_BYTES", Set::MOST_LIST_TEXT_BYTES),
        ("PARTITIONS", Build::MOST_PARTITIONS),
        ("RECORDS", Release::MOST_RECORDS),
        ("SCRIPT_BYTES", Release::MOST_SCRIPT_BYTES),
    ] {
        assert!(header.contains(&format!("#define JEFKANTU_MOST_{name} {value}\n")));
    }
}
