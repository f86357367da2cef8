//! Orders like those of the evaluations in source documents 001 and 003, the largest ones, and orders by the number of
//! their partitions.

use super::random::Random;
use crate::order::{Order, Task};

/// Ticks in a millisecond.
const MILLISECOND: u32 = 100;

/// Orders drawn alike, and their name.
pub type Family = (&'static str, fn(&mut Random) -> Order);

/// All of them.
pub const FAMILIES: [Family; 7] = [
    ("001, M = 8, n = 8", |random| vision(random, 8)),
    ("001, M = 8, n = 16", |random| vision(random, 16)),
    ("003, M = 8, n = 8", |random| synthetic(random, 8, 8)),
    ("003, M = 8, n = 16", |random| synthetic(random, 8, 16)),
    ("003, M = 16, n = 16", |random| synthetic(random, 16, 16)),
    ("003, M = 16, n = 32", |random| synthetic(random, 16, 32)),
    ("largest, M = 64, n = 32", |random| synthetic(random, 64, 32)),
];

/// Shares of a whole, in thousandths, each at least 1.
fn shares(random: &mut Random, whole: u32, n: u32) -> Vec<u32> {
    let mut cuts: Vec<u32> = (1..n).map(|_| random.between(0, whole)).collect();
    cuts.extend([0, whole]);
    cuts.sort();
    cuts.windows(2).map(|cut| (cut[1] - cut[0]).clamp(1, 1_000)).collect()
}

/// Document 001: vision models of 3 to 343 ms, M = 8, a utilisation of 0.1 to 8, T = C / U and D = T.
fn vision(random: &mut Random, n: u32) -> Order {
    let utilisation = random.between(1, 80) * 100;
    let tasks = shares(random, utilisation, n).into_iter().map(|share| {
        let longest = random.pick(&[50, 100, 343]);
        let c = random.between(3 * MILLISECOND, longest * MILLISECOND);
        let t = (u64::from(c) * 1_000 / u64::from(share)).clamp(1, Task::PERIOD.into()) as u32;
        Task { m: random.spread(1, 8), t, d: t, c: c.min(t) }
    });
    Order { processors: 8, tasks: tasks.collect() }
}

/// Document 003: T of 10 to 1,000 ms, m up to 0.3, 0.6 or 1 times M, a normalised utilisation of 0.1 to 1.
pub fn synthetic(random: &mut Random, processors: u32, n: u32) -> Order {
    let most = (processors * random.pick(&[3, 6, 10])).div_ceil(10);
    let utilisation = processors * random.between(1, 10) * 100;
    let tasks = shares(random, utilisation, n).into_iter().map(|share| {
        let t = random.between(10 * MILLISECOND, 1_000 * MILLISECOND);
        let m = random.between(1, most);
        let c = (u64::from(t) * u64::from(share)).div_ceil(1_000 * u64::from(m)) as u32;
        Task { m, t, d: t, c: c.clamp(1, t) }
    });
    Order { processors, tasks: tasks.collect() }
}

/// 32 tasks of width 1, of periods of 10 to 200 ms, that about fill so many partitions.
pub fn filling(random: &mut Random, partitions: u32) -> Order {
    let mut task = || {
        let t = random.between(10 * MILLISECOND, 200 * MILLISECOND);
        let share = match partitions {
            32 => random.between(550, 950), // no two fit together
            _ => random.between(1, 48 * partitions),
        };
        Task { m: 1, t, d: t, c: (t * share / 1_000).max(1) }
    };
    Order { processors: partitions, tasks: (0..32).map(|_| task()).collect() }
}
