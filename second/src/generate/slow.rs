//! Orders that are slow to plan, for the search for slower ones.

use super::cores::fill_up;
use super::random::Random;
use crate::order::{Order, Task};

fn task(t: u32, d: u32, c: u32) -> Task {
    let t = t.clamp(1, Task::PERIOD);
    let c = c.clamp(1, t);
    Task { m: 1, t, d: d.clamp(c, t), c }
}

/// The orders of slow.txt, the slowest that were found.
pub fn known() -> Vec<Order> {
    read(include_str!("../../slow.txt"))
}

/// The orders of such lines: the terms of the plan and of the check, M, and the tasks as m,T,D,C.
pub fn read(lines: &str) -> Vec<Order> {
    let lines = lines.lines().filter(|line| !line.starts_with('#'));
    let order = |line: &str| {
        let mut words = line.split(' ').skip(2);
        let number = |word: &str| word.parse().expect("a number");
        let processors = words.next().map_or(0, number);
        let task = |word: &str| {
            let mut numbers = word.split(',').map(number);
            let [m, t, d, c] = [(); 4].map(|()| numbers.next().unwrap_or(0));
            Task { m, t, d, c }
        };
        Order { processors, tasks: words.map(task).collect() }
    };
    lines.map(order).collect()
}

/// An order as such a line.
pub fn line(plan: u64, check: u64, order: &Order) -> String {
    let tasks = order.tasks.iter().map(|k| format!(" {},{},{},{}", k.m, k.t, k.d, k.c));
    format!("{plan} {check} {}{}", order.processors, tasks.collect::<String>())
}

/// A first order of one of several kinds; most have utilisation just under 1.
pub fn seed(random: &mut Random) -> Order {
    let n = match random.below(3) {
        0 => random.between(2, 32),
        _ => 32,
    };
    let mut tasks = match random.below(8) {
        0 => chain(random),
        1 => outranked(random),
        2 => equal(random),
        3 => lone(random),
        4 | 5 => pairs(random),
        6 => cores(random),
        _ => any(random),
    };
    let late = random.below(3);
    while (tasks.len() as u32) < n {
        let (t, left) = (Task::PERIOD - random.spread(0, 1_000), n - tasks.len() as u32);
        let d = match late {
            0 => t,
            1 => random.spread(1, t),
            // The lower its number, the sooner it is due: each newcomer outranks those before it.
            _ => t - left * random.between(1, 20_000),
        };
        tasks.push(task(t, d, random.spread(1, 4)));
    }
    if random.one_in(2) {
        random.shuffle(&mut tasks);
    }
    Order { processors: random.pick(&[1, 1, 2, 3, 8]), tasks }
}

/// 1/2 + 1/3 + 1/7 + 1/43, at some scale, and a fifth that about fills the rest.
fn chain(random: &mut Random) -> Vec<Task> {
    let scale = if random.one_in(2) { 1 } else { random.spread(1, 40) };
    let last = random.between(1_807, 2_200);
    [2, 3, 7, 43, last].map(|t| task(t * scale, t * scale, scale)).to_vec()
}

/// A few tasks of full use with room for many that outrank them.
fn outranked(random: &mut Random) -> Vec<Task> {
    let base = random.between(20, 400);
    let mut left = 1.0;
    let mut next = |last: bool| {
        let t = base * random.between(1, 6) + random.below(9);
        let part = if last { left } else { left * f64::from(random.between(10, 90)) / 100.0 };
        let c = ((f64::from(t) * part) as u32).max(1);
        left = (left - f64::from(c) / f64::from(t)).max(0.0);
        task(t, t, c)
    };
    vec![next(false), next(false), next(false), next(true)]
}

/// Many alike that fill most of their period, and one that about fills the rest.
fn equal(random: &mut Random) -> Vec<Task> {
    let k = random.between(2, 24);
    let t = k + random.below(40);
    let mut tasks: Vec<Task> = (0..k).map(|_| task(t, random.between(1, t), 1)).collect();
    let times = random.between(2, 3_000);
    tasks.push(task(t * times, t * times, (t - k) * times - random.below(3).min((t - k) * times)));
    tasks
}

/// One that takes all or nearly all of a processor, above the others.
fn lone(random: &mut Random) -> Vec<Task> {
    let t = random.spread(1, 2_000);
    vec![task(t, random.between(1, t), t - random.below(2).min(t - 1))]
}

/// A core of short periods, in pairs of periods one apart, that leaves little of a processor.
fn pairs(random: &mut Random) -> Vec<Task> {
    let base = random.between(10, 3_000);
    let kinds = random.between(1, 5);
    let mut left = 1.0 - f64::from(random.between(1, 300)) / 1e6;
    let mut tasks = Vec::new();
    for kind in 0..2 * kinds {
        let t = base * random.between(1, 3) + kind % 2;
        let part =
            if kind + 1 == 2 * kinds { left } else { left / f64::from(random.between(2, 6)) };
        let c = ((f64::from(t) * part) as u32).max(1);
        left -= f64::from(c) / f64::from(t);
        tasks.push(task(t, t, c));
        if left <= 0.0 {
            break;
        }
    }
    tasks
}

/// Several cores, each enough for a partition.
fn cores(random: &mut Random) -> Vec<Task> {
    let core = if random.one_in(2) { chain(random) } else { pairs(random) };
    let times = random.between(2, 6) as usize;
    core.iter().cycle().take((core.len() * times).min(30)).copied().collect()
}

/// Any few.
fn any(random: &mut Random) -> Vec<Task> {
    let k = random.between(2, 12);
    let mut next = || {
        let t = random.spread(2, Task::PERIOD);
        task(t, random.spread(1, t), t / random.between(2, 12))
    };
    (0..k).map(|_| next()).collect()
}

/// The order with a few numbers changed.
pub fn changed(random: &mut Random, order: &Order) -> Order {
    let mut order = order.clone();
    for _ in 0..random.between(1, 4) {
        let n = order.tasks.len() as u32;
        let (i, j) = (random.below(n) as usize, random.below(n) as usize);
        let Task { t, d, c, .. } = order.tasks[i];
        let by = random.spread(1, 100);
        order.tasks[i] = match random.below(14) {
            0 => task(t + 1, if d == t { d + 1 } else { d }, c),
            1 => task(t - 1, d, c),
            2 => task(t + by, d, c),
            3 => task(t.saturating_sub(by), d, c),
            4 => task(t, d, c + 1),
            5 => task(t, d, c - 1),
            6 => task(t, t, c),
            7 => task(t, random.between(c, t), c),
            8 => order.tasks[j],
            9 => task(Task::PERIOD, Task::PERIOD, 1),
            10 => task(random.spread(2, 2_000), Task::PERIOD, c),
            11 => task(t, d + 1, c),
            12 => task(t.saturating_mul(by + 1) / by, d, c.saturating_mul(by + 1) / by),
            _ => task(t, d.saturating_sub(by), c),
        };
        match random.below(24) {
            4 => fill_core(random, &mut order.tasks, i),
            5 => outrank(&mut order.tasks),
            0 if n < 32 => order.tasks.push(order.tasks[j]),
            1 if n > 2 => drop(order.tasks.remove(j)),
            2 => order.processors = random.spread(1, 32),
            3 => order.tasks.swap(i, j),
            _ => {}
        }
    }
    order
}

/// A period of more is not of the core.
const CORE: u32 = 10_000;

/// Gives a task of the core such a period that the core leaves only little of a processor.
fn fill_core(random: &mut Random, tasks: &mut [Task], i: usize) {
    tasks.swap(0, i);
    let mut core = vec![tasks[0]];
    core.extend(tasks[1..].iter().filter(|k| k.t <= CORE));
    fill_up(random, &mut core, 0);
    tasks[0] = core[0];
    tasks.swap(0, i);
}

/// Turns the deadlines of the other tasks round, so that each newcomer outranks those before it.
fn outrank(tasks: &mut [Task]) {
    let others = |k: &Task| k.t > CORE;
    let mut numbers: Vec<usize> = (0..tasks.len()).filter(|&i| others(&tasks[i])).collect();
    let mut deadlines: Vec<u32> = numbers.iter().map(|&i| tasks[i].d).collect();
    numbers.sort_by_key(|&i| (tasks[i].t, i));
    deadlines.sort_by(|a, b| b.cmp(a));
    for (i, d) in numbers.into_iter().zip(deadlines) {
        let Task { t, c, .. } = tasks[i];
        tasks[i] = task(t, d, c);
    }
}
