//! Each refusal by one alteration of the sample, and which comes first of two.

use second::answer::{Answer, NO_PLACE};
use second::build::{Build, Member, Partition};
use second::generate::damage::set;
use second::order::{Order, Task};
use second::script::{self, Record};

/// The sample order, its build and a legal script, as things and then as bytes.
struct Sample {
    order: Vec<u8>,
    build: Vec<u8>,
    script: Vec<u8>,
    places: usize,
}

fn tasks(rows: &[(u32, u32, u32, u32)]) -> Vec<Task> {
    let task = |&(m, t, d, c)| Task { m, t, d, c };
    rows.iter().map(task).collect()
}

fn build(processors: u32, partitions: &[(u32, u32)], members: &[(u32, u32, u32)]) -> Vec<u8> {
    let partition = |&(volume, first)| Partition { volume, first };
    let member = |&(partition, rank, response)| Member { partition, rank, response };
    Build {
        processors,
        partitions: partitions.iter().map(partition).collect(),
        members: members.iter().map(member).collect(),
    }
    .bytes()
}

fn script(records: &[(u32, usize, u32)]) -> Vec<u8> {
    let record = |&(tick, task, length)| Record { tick, task, length };
    script::bytes(&records.iter().map(record).collect::<Vec<_>>())
}

const ROWS: [(u32, u32, u32, u32); 3] = [(2, 10, 10, 4), (1, 14, 13, 4), (1, 14, 13, 4)];
const PARTS: [(u32, u32); 2] = [(2, 0), (1, 2)];
const SEATS: [(u32, u32, u32); 3] = [(0, 0, 7), (0, 1, 8), (1, 0, 4)];

fn sample() -> Sample {
    let order = Order { processors: 4, tasks: tasks(&ROWS) };
    Sample {
        order: order.bytes(),
        build: build(4, &PARTS, &SEATS),
        script: script(&[(0, 1, 4), (1, 0, 4), (1, 2, 3), (11, 0, 1)]),
        places: 4,
    }
}

/// The place of a task's field on the wire, in bits.
fn order_bit(task: usize, field: usize) -> usize {
    24 + 72 * task + [0, 7, 27, 47, 67][field]
}

fn refused(number: u16, place: u16) -> Answer {
    Answer { number, place, count: 0 }
}

/// Alters the order, and expects a refusal from reading, planning, checking and running.
#[track_caller]
fn order_refused(number: u16, place: u16, alter: impl Fn(&mut Vec<u8>)) {
    let mut sample = sample();
    alter(&mut sample.order);
    let mut numbers = [9; 130];
    assert_eq!(second::read_order(&sample.order, &mut numbers), refused(number, place));
    assert_eq!(numbers, [9; 130]);
    let mut out = [9; 200];
    assert_eq!(second::plan(&sample.order, &mut out), refused(number, place));
    assert_eq!(out, [9; 200]);
    sample.build.clear();
    sample.expect(number, place);
}

/// Alters the build, and expects a refusal from checking and running.
#[track_caller]
fn build_refused(number: u16, place: u16, alter: impl Fn(&mut Vec<u8>)) {
    let mut sample = sample();
    alter(&mut sample.build);
    sample.script = vec![0];
    sample.expect(number, place);
}

/// Alters anything, and expects a refusal from running.
#[track_caller]
fn run_refused(number: u16, place: u16, alter: impl Fn(&mut Sample)) {
    let mut sample = sample();
    alter(&mut sample);
    assert_eq!(sample.run(), refused(number, place));
}

impl Sample {
    #[track_caller]
    fn expect(&self, number: u16, place: u16) {
        let checked = second::check(&self.order, &self.build);
        assert_eq!(checked, refused(number, place));
        assert_eq!(self.run(), refused(number, place));
    }

    #[track_caller]
    fn run(&self) -> Answer {
        let mut out = vec![9; self.places];
        let answer = second::run(&self.order, &self.build, &self.script, &mut out);
        assert!(answer.number == 0 || out.iter().all(|&tick| tick == 9));
        answer
    }
}

#[test]
fn the_sample_is_accepted() {
    let done = Answer { number: 0, place: NO_PLACE, count: 4 };
    assert_eq!(sample().run(), done);
}

#[test]
fn of_the_order() {
    order_refused(1, NO_PLACE, |order| order.clear());
    order_refused(1, NO_PLACE, |order| order.truncate(2));
    order_refused(2, NO_PLACE, |order| set(order, 0, 4, 2));
    order_refused(2, NO_PLACE, |order| set(order, 0, 24, 0));
    order_refused(3, NO_PLACE, |order| set(order, 4, 7, 0));
    order_refused(3, NO_PLACE, |order| set(order, 4, 7, 65));
    order_refused(4, NO_PLACE, |order| set(order, 11, 6, 0));
    order_refused(4, NO_PLACE, |order| set(order, 11, 6, 33));
    order_refused(5, NO_PLACE, |order| order.push(0));
    order_refused(5, NO_PLACE, |order| order.truncate(3));
    order_refused(5, NO_PLACE, |order| set(order, 11, 6, 32));
    order_refused(6, NO_PLACE, |order| set(order, 17, 7, 64));
    order_refused(6, 2, |order| set(order, order_bit(2, 4), 5, 1));
    for (field, wrong) in [(0, 5), (1, 1_000_001), (2, 15), (3, 14)] {
        let number = 7 + field as u16;
        order_refused(number, 1, |order| {
            set(order, order_bit(1, field), [7, 20, 20, 20][field], wrong)
        });
        order_refused(number, 2, |order| {
            set(order, order_bit(2, field), [7, 20, 20, 20][field], 0)
        });
    }
}

#[test]
fn order_of_the_order() {
    order_refused(6, NO_PLACE, |order| {
        set(order, 17, 7, 1);
        set(order, order_bit(0, 4), 5, 1);
    });
    order_refused(6, 2, |order| {
        set(order, order_bit(2, 4), 5, 16);
        set(order, order_bit(0, 0), 7, 0);
    });
    order_refused(10, 0, |order| {
        set(order, order_bit(0, 3), 20, 11);
        set(order, order_bit(1, 0), 7, 0);
    });
    order_refused(8, 1, |order| {
        set(order, order_bit(1, 1), 20, 0);
        set(order, order_bit(1, 2), 20, 0);
    });
}

#[test]
fn of_the_plan() {
    let order = Order { processors: 2, tasks: tasks(&ROWS) };
    assert_eq!(second::plan(&order.bytes(), &mut []), refused(11, 2));
    let mut out = [9; 18];
    assert_eq!(second::plan(&sample().order, &mut out), refused(12, NO_PLACE));
    assert_eq!(out, [9; 18]);
}

#[test]
fn of_the_writer() {
    let write = |processors, columns: [&[u32]; 4], room| {
        let [m, t, d, c] = columns;
        let mut out = vec![9; room];
        let answer = second::write_order(processors, m, t, d, c, &mut out);
        assert!(answer.number == 0 || out.iter().all(|&byte| byte == 9));
        (answer.number, answer.place)
    };
    assert_eq!(write(0, [&[1], &[], &[1], &[1]], 99), (13, NO_PLACE));
    assert_eq!(write(1, [&[1], &[1], &[1], &[1, 1]], 99), (13, NO_PLACE));
    assert_eq!(write(0, [&[]; 4], 99), (3, NO_PLACE));
    assert_eq!(write(u32::MAX, [&[1]; 4], 99), (3, NO_PLACE));
    assert_eq!(write(65, [&[1]; 4], 99), (3, NO_PLACE));
    assert_eq!(write(1, [&[]; 4], 99), (4, NO_PLACE));
    assert_eq!(write(1, [&[1; 33]; 4], 999), (4, NO_PLACE));
    assert_eq!(write(1, [&[1; 32]; 4], 291), (0, NO_PLACE));
    assert_eq!(write(1, [&[1; 32]; 4], 290), (12, NO_PLACE));
    assert_eq!(write(1, [&[1, 2], &[1; 2], &[1; 2], &[1; 2]], 0), (7, 1));
    let past = 1_000_001;
    assert_eq!(write(1, [&[1], &[past], &[past], &[past]], 0), (8, 0));
    assert_eq!(write(1, [&[1], &[9], &[1 << 31], &[1]], 0), (9, 0));
    assert_eq!(write(1, [&[1], &[9], &[8], &[9]], 0), (10, 0));
}

#[test]
fn of_the_build() {
    let other = |parts: &[(u32, u32)], members: &[(u32, u32, u32)]| build(4, parts, members);
    build_refused(20, NO_PLACE, |build| build.truncate(2));
    build_refused(21, NO_PLACE, |build| set(build, 0, 4, 0));
    build_refused(21, NO_PLACE, |build| set(build, 4, 7, 5));
    build_refused(21, NO_PLACE, |build| set(build, 11, 6, 2));
    build_refused(21, NO_PLACE, |build| set(build, 17, 7, 0));
    build_refused(21, NO_PLACE, |build| set(build, 17, 7, 33));
    build_refused(22, NO_PLACE, |build| set(build, 17, 7, 32));
    build_refused(22, NO_PLACE, |build| build.push(0));
    build_refused(23, NO_PLACE, |build| set(build, 24 + 13, 3, 1));
    build_refused(23, NO_PLACE, |build| set(build, 24 + 32 + 31, 1, 1));
    build_refused(24, 0, |build| *build = other(&[(0, 0), (1, 2)], &SEATS));
    build_refused(24, 1, |build| *build = other(&[(2, 0), (1, 4)], &SEATS));
    build_refused(24, 1, |build| *build = other(&[(2, 0), (2, 1)], &SEATS));
    build_refused(24, 1, |build| *build = other(&[(1, 1), (4, 0)], &SEATS));
    build_refused(25, 1, |build| *build = other(&PARTS, &[(0, 0, 7), (2, 1, 8), (1, 0, 4)]));
    build_refused(25, 0, |build| *build = other(&PARTS, &[(1, 0, 7), (0, 1, 8), (1, 0, 4)]));
    build_refused(26, 1, |build| *build = other(&PARTS, &[(0, 0, 7), (0, 0, 8), (1, 0, 4)]));
    build_refused(29, 2, |build| *build = other(&PARTS, &[(0, 0, 7), (0, 1, 11), (0, 2, 14)]));
    build_refused(30, 0, |build| *build = other(&PARTS, &[(0, 0, 6), (0, 1, 8), (1, 0, 4)]));
    build_refused(30, 2, |build| *build = other(&PARTS, &[(0, 0, 7), (0, 1, 8), (1, 0, 5)]));
}

/// P8 in one partition: the first task passes with 10, the second has no window.
#[test]
fn of_the_window() {
    let order = Order { processors: 1, tasks: tasks(&[(1, 10, 10, 6), (1, 10, 10, 5)]) };
    let checked = |first| {
        let build = build(1, &[(1, 0)], &[(0, 0, first), (0, 1, 10)]);
        second::check(&order.bytes(), &build)
    };
    assert_eq!(checked(10), refused(27, 1));
    assert_eq!(checked(9), refused(30, 0));
}

/// Empty, wide and unordered partitions are no cause.
#[test]
fn odd_builds_are_accepted() {
    let odd = build(4, &[(1, 3), (1, 0), (2, 1)], &[(2, 0, 7), (2, 1, 8), (1, 0, 4)]);
    assert_eq!(second::check(&sample().order, &odd).number, 0);
}

#[test]
fn of_the_script() {
    run_refused(40, NO_PLACE, |sample| sample.script.push(0));
    run_refused(40, NO_PLACE, |sample| sample.script = vec![0; 6 * 1_025]);
    run_refused(46, NO_PLACE, |sample| sample.places = 3);
    run_refused(46, NO_PLACE, |sample| {
        sample.script = vec![255; 6];
        sample.places = 0;
    });
    run_refused(41, 3, |sample| set(&mut sample.script, 3 * 48 + 45, 3, 2));
    run_refused(41, 0, |sample| sample.script = vec![255; 6]);
    run_refused(42, 1, |sample| set(&mut sample.script, 48 + 20, 5, 3));
    run_refused(43, 2, |sample| sample.script = script(&[(0, 1, 4), (1, 2, 4), (1, 0, 5)]));
    run_refused(43, 1, |sample| sample.script = script(&[(5, 1, 4), (5, 1, 4)]));
    run_refused(44, 0, |sample| sample.script = script(&[(0, 1, 0)]));
    run_refused(44, 1, |sample| sample.script = script(&[(0, 1, 4), (9, 1, 5)]));
    run_refused(45, 3, |sample| {
        sample.script = script(&[(0, 1, 4), (1, 0, 4), (1, 2, 3), (10, 0, 1)])
    });
}
