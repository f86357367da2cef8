//! Random orders, all of them in range.

use super::damage::Section;
use super::random::Random;
use super::Scale;
use crate::order::{Order, Task};
use crate::response::HORIZON;

/// An order of one of several tempers.
pub fn order(random: &mut Random, scale: &Scale) -> Order {
    let processors = match random.below(3) {
        0 => random.between(1, 64),
        1 => random.pick(&[1, 2, 3, 4, 8, 64]),
        _ => random.spread(1, 64),
    };
    let n = match random.below(10) {
        0 => scale.tasks,
        _ => random.spread(1, scale.tasks),
    };
    let tasks = match random.below(20) {
        0..=2 => brimming(random, scale, n),
        3 if *scale == Scale::FULL => far(random),
        _ => mixed(random, scale, n),
    };
    let mut tasks: Vec<Task> =
        tasks.into_iter().map(|task| Task { m: width(random, processors), ..task }).collect();
    if random.one_in(4) {
        alike(random, &mut tasks);
    }
    Order { processors, tasks }
}

/// Puts a number of one task out of range.
pub fn misdraw(random: &mut Random, order: &mut Order) {
    let chosen = random.below(order.tasks.len() as u32) as usize;
    let task = &mut order.tasks[chosen];
    match random.below(4) {
        0 => task.m = random.pick(&[0, order.processors + 1]),
        1 => task.t = random.pick(&[0, Task::PERIOD + 1]),
        2 => task.d = random.pick(&[0, task.t + 1]),
        _ => task.c = random.pick(&[0, task.d + 1]),
    }
}

/// Puts M or n out of range.
pub fn miscount(random: &mut Random, order: &mut Order) {
    if random.one_in(2) {
        order.processors = random.pick(&[0, 65, 127]);
    } else {
        order.tasks.resize(random.pick(&[0, 33, 48]), Task { m: 1, t: 1, d: 1, c: 1 });
    }
}

/// The fields of an order on the wire.
pub fn sections(order: &Order) -> Vec<Section> {
    vec![Section::new(&Order::HEADER.0, 1), Section::new(&Order::TASK.0, order.tasks.len())]
}

/// Mostly narrow, so that partitions get several members.
fn width(random: &mut Random, processors: u32) -> u32 {
    match random.below(4) {
        0 => random.between(1, processors),
        1 => 1,
        _ => random.spread(1, processors),
    }
}

/// Periods of one kind, and run times such that a group of tasks about fills a partition.
fn mixed(random: &mut Random, scale: &Scale, n: u32) -> Vec<Task> {
    let group = random.between(1, n);
    let fill = random.pick(&[200, 500, 800, 950, 1_000, 1_100]);
    let (least, most) =
        random.pick(&[(2, 12), (4, 100), (300, 6_000), (1, 1_000_000), (900_000, 1_000_000)]);
    let (least, most) = (least.min(scale.period), most.min(scale.period));
    let even = random.one_in(2);
    let mut task = || {
        let t = if even { random.between(least, most) } else { random.spread(least, most) };
        let share = u64::from(random.below((2 * fill / group + 2).min(1_001)));
        let c = (u64::from(t) * share / 1_000).clamp(1, t.into()) as u32;
        let d = match random.below(8) {
            0 => c,
            1..=3 => random.between(c, t),
            _ => t,
        };
        Task { m: 1, t, d, c }
    };
    (0..n).map(|_| task()).collect()
}

/// One period for all, and run times that together about equal it: windows on the line.
fn brimming(random: &mut Random, scale: &Scale, n: u32) -> Vec<Task> {
    let most = scale.period;
    let longest = random.one_in(2);
    let t = if longest { most } else { random.spread(1, most) };
    let n = n.min(t).min(random.between(1, 6));
    let mut cuts: Vec<u32> = (1..n).map(|_| random.between(0, t)).collect();
    cuts.extend([0, t + random.below(3)]);
    cuts.sort();
    let shares = cuts.windows(2).map(|cut| cut[1] - cut[0]);
    let task = |share: u32| {
        let c = share.saturating_sub(random.below(2)).clamp(1, t);
        let d = if random.one_in(8) { random.between(c, t) } else { t };
        Task { m: 1, t, d, c }
    };
    shares.map(task).collect()
}

/// Two tasks that, in one partition, give the first a window of about the horizon.
///
/// With T = C + 1 the window is T times the blocking; each period divides a number close to H.
fn far(random: &mut Random) -> Vec<Task> {
    let t = random.pick(&[2, 3, 8, 37, 77, 100, 101, 9_901]);
    let blocking = HORIZON / t + random.below(2);
    let task = |t, c| Task { m: 1, t, d: t, c };
    vec![task(t, t - 1), task(Task::PERIOD, blocking + 1)]
}

/// Gives tasks the width, period or deadline of their neighbours, as far as they allow it.
fn alike(random: &mut Random, tasks: &mut [Task]) {
    for i in 1..tasks.len() {
        let before = tasks[i - 1];
        let task = &mut tasks[i];
        match random.below(5) {
            0 => *task = before,
            1 => task.m = before.m,
            2 => task.t = before.t.max(task.d),
            3 => task.d = before.d.clamp(task.c, task.t),
            _ => {}
        }
    }
}
