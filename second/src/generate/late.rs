//! Random orders and builds in which a task is about late, and the ones that were typed.

use super::random::Random;
use super::{builds, orders, slow, Scale};
use crate::answer::Cause;
use crate::build::Build;
use crate::counted;
use crate::late::Late;
use crate::order::{Order, Task};
use crate::script::Record;

/// An order and a build of it with sound ranks, in which mostly some task is late.
pub fn order_and_build(random: &mut Random, scale: &Scale) -> (Order, Build) {
    match random.below(10) {
        0..=4 => apart(random, scale),
        5 if *scale == Scale::FULL => on_the_line(random),
        6 if *scale == Scale::FULL => {
            let order = Order { processors: 1, tasks: chain(random) };
            let build = builds::all_in_one(&order);
            (order, build)
        }
        _ => {
            let order = orders::order(random, scale);
            let build = builds::blindly(random, &order);
            (order, build)
        }
    }
}

/// One partition or a few, each about filled, their tasks numbered through one another.
fn apart(random: &mut Random, scale: &Scale) -> (Order, Build) {
    let partitions = random.pick(&[1, 1, 2, 3, 4]);
    let mut tasks: Vec<(u32, Task)> = Vec::new();
    for home in 0..partitions {
        let draws = random.pick(&[1, 30]);
        let mut members = filled(random, scale);
        for _ in 1..draws {
            if !later_job(&members) {
                members = filled(random, scale);
            }
        }
        tasks.extend(members.into_iter().map(|task| (home, task)));
    }
    random.shuffle(&mut tasks);
    let (homes, tasks): (Vec<u32>, Vec<Task>) = tasks.into_iter().unzip();
    let order = Order { processors: random.between(partitions, 64), tasks };
    let build = builds::at_homes(&order, &homes);
    (order, build)
}

/// Tasks of about one period that about fill a processor, the last in rank due one tick before its worst response.
fn filled(random: &mut Random, scale: &Scale) -> Vec<Task> {
    let n = random.between(2, scale.tasks.min(6));
    let base = random.spread(4, scale.period / 2);
    let mut left = random.between(900, 1_000);
    let mut task = |others: u32| {
        let t = random.between(base, 2 * base);
        let share = if others == 0 { left } else { random.below(2 * left / (others + 1)) };
        left -= share;
        Task { m: 1, t, d: t, c: (t * share / 1_000).max(1) }
    };
    let tasks = (0..n).rev().map(&mut task).collect();
    let mut order = Order { processors: 1, tasks };
    let build = builds::all_in_one(&order);
    let last = build.members.iter().position(|member| member.rank + 1 == n);
    if let Some(i) = last.filter(|&i| build.members[i].response > order.tasks[i].c) {
        order.tasks[i].d = build.members[i].response - 1;
    }
    order.tasks
}

/// Whether, together in one partition, not the first but a later job of its window makes a task late.
fn later_job(tasks: &[Task]) -> bool {
    let order = Order { processors: 1, tasks: tasks.to_vec() };
    let late = Late::new(&order.bytes(), &builds::all_in_one(&order).bytes());
    late.is_ok_and(|late| late.jobs() > 1)
}

/// The periods 2, 3, 7 and about 43, all with C = 1, so that no member is blocked, and one or two below them, of which
/// the last is due too soon.
fn chain(random: &mut Random) -> Vec<Task> {
    let task = |t, d, c| Task { m: 1, t, d, c };
    let fourth = random.between(43, 60);
    let mut tasks = [2, 3, 7, fourth].map(|t| task(t, t, 1)).to_vec();
    tasks.truncate(random.between(2, 4) as usize);
    if random.one_in(2) {
        tasks.push(task(random.between(1_800, 9_000), 1_800, 1));
    }
    let (t, c) = (random.between(4_000, 1_000_000), random.spread(1, 200));
    tasks.push(task(t, random.between(1_800, 4_000), c));
    tasks
}

/// Task 0 below some of short periods, and blocked for so long that its script has 1,024 records or about that many.
pub fn on_the_line(random: &mut Random) -> (Order, Build) {
    let task = |t, d, c| Task { m: 1, t, d, c };
    let named = task(random.between(200, 1_000_000), random.between(30, 60), random.between(1, 9));
    let mut tasks = vec![named, task(Task::PERIOD, Task::PERIOD, 1)];
    let mut left = 900;
    for _ in 0..random.between(1, 4) {
        let t = random.between(2, 20);
        let c = random.between(1, 3).min(t);
        if c * 1_000 / t < left {
            left -= c * 1_000 / t;
            tasks.push(task(t, random.between(c, t), c));
        }
    }
    let mut order = Order { processors: random.pick(&[1, 2, 64]), tasks };
    let least = Record::MOST as u32 - 1 + random.below(4);
    let (mut short, mut enough) = (1, 20_000);
    while short + 1 < enough {
        let cost = (short + enough) / 2;
        order.tasks[1].c = cost;
        match records(&order) < least as usize {
            true => short = cost,
            false => enough = cost,
        }
    }
    order.tasks[1].c = enough;
    let build = builds::all_in_one(&order);
    (order, build)
}

/// The records of the script of all in one partition; none where no task is late.
fn records(order: &Order) -> usize {
    let build = builds::ranked_in_one(order);
    Late::new(&order.bytes(), &build.bytes()).map_or(0, |late| late.script.len())
}

/// The orders of slow.txt as builds in one partition that are refused 29, each with its place in the file, as far as
/// their check is slow then too.
pub fn slow_ones() -> Vec<(usize, Order, Build)> {
    let late = |(place, order): (usize, Order)| {
        let (order, build) = hardest(&order)?;
        Some((place, order, build))
    };
    slow::known().into_iter().enumerate().filter_map(late).collect()
}

/// The least terms of a slow check.
const SLOW: u64 = 10_000;

/// The terms of a check that is refused 29, and those of the search for the late job.
pub fn terms(order: &Order, build: &Build) -> Option<(u64, u64)> {
    let (refused, terms) = counted::check(order, build);
    let late = refused.err().filter(|refusal| refusal.cause == Cause::Late)?;
    Some((terms, counted::late(order, build, late.place?).1))
}

/// How many millionths of a slow check's terms the search for the late job takes.
fn millionths(order: &Order, build: &Build) -> Option<u64> {
    let (check, late) = terms(order, build).filter(|&(check, _)| check >= SLOW)?;
    Some(late * 1_000_000 / check)
}

/// The build with all tasks in one partition, as `builds::all_in_one`, by the quicker searches.
pub fn in_one(order: &Order) -> Build {
    let mut build = builds::ranked_in_one(order);
    let worsts = counted::worst_responses(order, &build);
    for (member, worst) in build.members.iter_mut().zip(worsts) {
        member.response = worst;
    }
    build
}

/// The order as it is, or with one member due one tick before its worst response, in one partition: where its search
/// for the late job takes most beside a slow check.
fn hardest(order: &Order) -> Option<(Order, Build)> {
    let build = in_one(order);
    let worst = |i: usize| build.members[i].response;
    let key = |i: usize| (order.tasks[i].d, i);
    let above = |i| (0..order.tasks.len()).map(key).filter(|&other| other < key(i)).max();
    let sooner = |i: usize| {
        let mut order = order.clone();
        order.tasks[i].d = worst(i) - 1;
        order
    };
    // Its rank stays, and so do all responses.
    let stays = |&i: &usize| above(i).is_none_or(|other| other < (worst(i) - 1, i));
    let passing = (0..order.tasks.len()).take_while(|&i| worst(i) > 0);
    let allowed = passing.filter(|&i| worst(i) > order.tasks[i].c).filter(stays);
    let orders = allowed.map(sooner).chain([order.clone()]);
    let counted = orders.filter_map(|order| Some((millionths(&order, &build)?, order)));
    let (_, order) = counted.max_by_key(|&(terms, _)| terms)?;
    Some((order, build))
}

/// A record as tick, task and length.
pub type Row = (u32, usize, u32);

/// Members as (T, D, C), their partitions, the room, the number, and the script where it is short and written.
type Edge = (&'static [(u32, u32, u32)], &'static [u32], usize, u16, &'static [Row]);

/// An order and a build that were typed, the room, and how they are answered.
pub struct Typed {
    pub order: Order,
    pub build: Build,
    pub room: usize,
    pub number: u16,
    pub script: &'static [Row],
}

/// P5 as a build, with a blocker and without one, and those on the edge of a rule.
pub fn typed() -> Vec<Typed> {
    let task = |&(t, d, c): &(u32, u32, u32)| Task { m: 1, t, d, c };
    let edge = |&(members, homes, room, number, script): &Edge| {
        let order = Order { processors: 4, tasks: members.iter().map(task).collect() };
        let build = builds::at_homes(&order, homes);
        Typed { order, build, room, number, script }
    };
    EDGES.iter().map(edge).collect()
}

const P5: &[(u32, u32, u32)] = &[(10, 10, 4), (14, 13, 4), (14, 13, 4)];
const P5_SCRIPT: &[Row] =
    &[(0, 0, 4), (0, 1, 4), (0, 2, 4), (10, 0, 4), (14, 1, 4), (14, 2, 4), (20, 0, 4)];

/// As long as it takes for 1,024 records, and a tick longer.
const LONG: &[(u32, u32, u32)] = &[(5_000, 50, 4), (2, 2, 1), (1_000_000, 1_000_000, 1_022)];
const LONGER: &[(u32, u32, u32)] = &[(5_000, 50, 4), (2, 2, 1), (1_000_000, 1_000_000, 1_023)];

const EDGES: &[Edge] = &[
    (P5, &[0, 0, 0], 50, 0, P5_SCRIPT),
    (P5, &[0, 0, 0], 42, 0, P5_SCRIPT),
    (P5, &[0, 0, 0], 41, 12, &[]),
    (P5, &[0, 0, 0], 0, 12, &[]),
    (P5, &[0, 0, 1], 50, 63, &[]),
    // P6 is accepted, P8 refused 27.
    (&[(10, 10, 4), (14, 13, 4), (14, 14, 4)], &[0, 0, 0], 50, 63, &[]),
    (&[(10, 10, 6), (10, 10, 5)], &[0, 0], 50, 63, &[]),
    // P5 beside another partition, whose member does not come.
    (
        &[(10, 10, 4), (5, 5, 5), (14, 13, 4), (14, 13, 4)],
        &[1, 0, 1, 1],
        50,
        0,
        &[(0, 0, 4), (0, 2, 4), (0, 3, 4), (10, 0, 4), (14, 2, 4), (14, 3, 4), (20, 0, 4)],
    ),
    // Of two lower members with the largest C the one of the lower number comes, though it has the lower priority.
    (
        &[(8, 8, 2), (30, 8, 3), (100, 100, 5), (100, 99, 5), (100, 90, 4)],
        &[0, 0, 0, 0, 0],
        20,
        0,
        &[(0, 2, 5), (1, 0, 2), (1, 1, 3)],
    ),
    // The late job waits for the blocker alone.
    (&[(10, 5, 2), (50, 50, 9)], &[0, 0], 12, 0, &[(0, 1, 9), (1, 0, 2)]),
    (&[(50, 50, 9), (10, 5, 2)], &[0, 0], 12, 0, &[(0, 0, 9), (1, 1, 2)]),
    // All lower members have C = 1: none blocks.
    (&[(4, 4, 2), (9, 4, 3), (50, 50, 1)], &[0, 0, 0], 20, 0, &[(0, 0, 2), (0, 1, 3)]),
    // Task 1 is late too, and of higher priority, but the check names task 0.
    (LONG, &[0, 0, 0], 6_144, 0, &[]),
    (LONG, &[0, 0, 0], 6_143, 12, &[]),
    (LONGER, &[0, 0, 0], 6_400, 64, &[]),
    (LONGER, &[0, 0, 0], 0, 64, &[]),
];
