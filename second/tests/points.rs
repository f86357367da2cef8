//! The points on the line, P1 to P12, and the sample order.

use second::answer::{Answer, Cause};
use second::order::{Order, Task};
use second::response::{Member, Roster};

const SAMPLE_TASKS: [[u32; 4]; 3] = [[2, 10, 10, 4], [1, 14, 13, 4], [1, 14, 13, 4]];
const SAMPLE_ORDER: &str = "108180 040001400014000080 020001C0001A000080 020001C0001A000080";
const SAMPLE_BUILD: &str = "108182 0400 0210 0000000E 00200010 04000008";

fn bytes(hex: &str) -> Vec<u8> {
    let digits: Vec<u32> = hex.chars().filter_map(|c| c.to_digit(16)).collect();
    let pairs = digits.chunks_exact(2);
    pairs.map(|pair| (16 * pair[0] + pair[1]) as u8).collect()
}

fn order(processors: u32, tasks: &[[u32; 4]]) -> Vec<u8> {
    let tasks = tasks.iter().map(|&[m, t, d, c]| Task { m, t, d, c });
    Order { processors, tasks: tasks.collect() }.bytes()
}

fn done(count: u32) -> Answer {
    Answer { number: 0, place: 65_535, count }
}

fn refused(number: u16, place: u16) -> Answer {
    Answer { number, place, count: 0 }
}

/// A partition whose members are (T, D, C).
fn partition(members: &[(u32, u32, u32)]) -> Roster {
    let mut roster = Roster::default();
    for (i, &(t, d, c)) in members.iter().enumerate() {
        roster.add(i, Task { m: 1, t, d, c });
    }
    roster
}

fn plan(order: &[u8]) -> (Answer, Vec<u8>) {
    let mut out = [0xAA; 195];
    let answer = second::plan(order, &mut out);
    let (front, rest) = out.split_at(answer.count as usize);
    assert!(rest.iter().all(|&byte| byte == 0xAA));
    (answer, front.to_vec())
}

#[test]
fn sample_bytes() {
    let sample = order(4, &SAMPLE_TASKS);
    assert_eq!(sample, bytes(SAMPLE_ORDER));
    let [m, t, d, c] = [0, 1, 2, 3].map(|column| SAMPLE_TASKS.map(|row| row[column]));
    let mut out = [0; 40];
    assert_eq!(second::write_order(4, &m, &t, &d, &c, &mut out), done(30));
    assert_eq!(out[..30], sample);
    let mut numbers = [9; 130];
    assert_eq!(second::read_order(&sample, &mut numbers), done(0));
    assert_eq!(numbers[..2], [4, 3]);
    assert_eq!(numbers[2..14], SAMPLE_TASKS.concat());
    assert_eq!(numbers[14..], [0; 116]);
}

#[test]
fn p1_sample_build() {
    let sample = bytes(SAMPLE_ORDER);
    assert_eq!(plan(&sample), (done(19), bytes(SAMPLE_BUILD)));
    assert_eq!(second::check(&sample, &bytes(SAMPLE_BUILD)), done(0));
}

#[test]
fn p2_fewer_processors() {
    assert_eq!(plan(&order(2, &SAMPLE_TASKS)).0, refused(11, 2));
    assert_eq!(plan(&order(3, &SAMPLE_TASKS)).0, done(19));
}

#[test]
fn p3_alone() {
    assert_eq!(partition(&[(10, 10, 10)]).responses(), Ok(vec![10]));
}

#[test]
fn p4_release_at_the_start() {
    let roster = partition(&[(4, 4, 2), (100, 50, 2), (100, 100, 1)]);
    assert_eq!(roster.responses(), Ok(vec![3, 4, 7]));
    let last = Member::new(&roster.tasks, 2);
    assert_eq!(last.start(0, 0), Some(6));
}

#[test]
fn p5_p6_second_job_of_a_window() {
    let roster = partition(&[(10, 10, 4), (14, 13, 4), (14, 13, 4)]);
    let third = Member::new(&roster.tasks, 2);
    assert_eq!(third.window(), Some(28));
    let response = |q| third.start(q, 0).map(|start| start + 4 - 14 * q);
    assert_eq!([0, 1].map(response), [Some(12), Some(14)]);
    assert_eq!(third.worst_response(), Err(Cause::Late));
    let roster = partition(&[(10, 10, 4), (14, 13, 4), (14, 14, 4)]);
    assert_eq!(roster.response(2), Ok(14));
}

#[test]
fn p7_p8_full_use() {
    let roster = partition(&[(10, 10, 6), (10, 10, 4)]);
    assert_eq!(roster.responses(), Ok(vec![9, 10]));
    let roster = partition(&[(10, 10, 6), (10, 10, 5)]);
    assert_eq!(roster.response(0), Ok(10));
    assert_eq!(roster.response(1), Err(Cause::Window));
}

#[test]
fn p9_sample_run() {
    let script = [(0, 1, 4), (1, 0, 4), (1, 2, 3)];
    let script = script.map(|(tick, task, length)| second::script::Record { tick, task, length });
    let script = second::script::bytes(&script);
    let mut out = [77; 5];
    let (order, build) = (bytes(SAMPLE_ORDER), bytes(SAMPLE_BUILD));
    assert_eq!(second::run(&order, &build, &script, &mut out), done(3));
    assert_eq!(out, [4, 8, 4, 77, 77]);
}

#[test]
fn p10_p11_p12_edges() {
    let answer = |task| plan(&order(4, &[task])).0;
    assert_eq!(answer([4, 10, 10, 10]), done(9));
    assert_eq!(answer([5, 10, 10, 10]), refused(7, 0));
    assert_eq!(answer([1, 1_000_000, 10, 10]), done(9));
    assert_eq!(answer([1, 1_000_001, 10, 10]), refused(8, 0));
    assert_eq!(answer([1, 10, 10, 10]), done(9));
    assert_eq!(answer([1, 10, 10, 11]), refused(10, 0));
}

/// A window of just H counts, though a second job is due at its end; one of H + 1 does not.
#[test]
fn horizon() {
    let long = 1_000_000;
    let roster = partition(&[(long, long, 600_000), (long, long, 400_000)]);
    assert_eq!(roster.responses(), Ok(vec![999_999, long]));
    let first = |blocker| partition(&[(101, 101, 100), (long, long, blocker)]).response(0);
    assert_eq!(first(9_901), Err(Cause::Late)); // window 101 · 9,900
    assert_eq!(first(9_902), Err(Cause::Window)); // 101 · 9,901 is H + 1
}
