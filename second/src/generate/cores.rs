//! Orders of a core that leaves little of a processor and of newcomers alike, for the search for slow ones.

use super::random::Random;
use crate::order::{Order, Task};

/// A core of short periods, so many times, then so many newcomers of one cost, each due so much sooner than the one
/// before it, which it outranks.
#[derive(Clone)]
pub struct Cores {
    core: Vec<Task>,
    copies: usize,
    newcomers: u32,
    cost: u32,
    sooner: u32,
    processors: u32,
}

/// The longest period that a core is filled up with.
const LONGEST: f64 = 20_000.0;

fn task(t: u32, d: u32, c: u32) -> Task {
    let t = t.clamp(1, Task::PERIOD);
    let c = c.clamp(1, t);
    Task { m: 1, t, d: d.clamp(c, t), c }
}

impl Cores {
    pub fn seed(random: &mut Random) -> Cores {
        let (base, cost) = (random.spread(2, 400), random.spread(1, 60));
        let mut core = vec![task(100, 100, random.pick(&[1, cost]))];
        let mut left = 1.0;
        for _ in 0..random.between(1, 8) {
            let t = base * random.between(1, 8) + random.below(3);
            let c = if random.one_in(2) { cost.min(t) } else { random.spread(1, t) };
            let part = f64::from(c) / f64::from(t);
            if part < left {
                left -= part;
                core.push(task(t, t, c));
            }
        }
        fill_up(random, &mut core, 0);
        Cores {
            core,
            copies: 1,
            newcomers: random.between(10, 30),
            cost: 1,
            sooner: random.pick(&[0, 1, 1, 10, 1_000]),
            processors: random.pick(&[1, 1, 2, 4]),
        }
    }

    /// With a few numbers changed.
    pub fn changed(&self, random: &mut Random) -> Cores {
        let mut cores = self.clone();
        for _ in 0..random.between(1, 3) {
            cores.change(random);
            if random.one_in(2) {
                let i = random.below(cores.core.len() as u32) as usize;
                fill_up(random, &mut cores.core, i);
            }
        }
        cores
    }

    fn change(&mut self, random: &mut Random) {
        let n = self.core.len() as u32;
        let i = random.below(n) as usize;
        let Task { t, d, c, .. } = self.core[i];
        let by = random.spread(1, 50);
        let due = |longer: u32| if d == t { longer } else { d };
        match random.below(14) {
            0 => self.core[i] = task(t + 1, due(t + 1), c),
            1 => self.core[i] = task(t - 1, d, c),
            2 => self.core[i] = task(t + by, due(t + by), c),
            3 => self.core[i] = task(t.saturating_sub(by), d, c),
            4 => self.core[i] = task(t, d, c + 1),
            5 => self.core[i] = task(t, d, c - 1),
            6 => self.core[i] = task(t, random.between(c, t), c),
            7 => self.core[i] = self.core[random.below(n) as usize],
            8 if n < 14 => {
                let t = random.spread(2, 5_000);
                self.core.push(task(t, t, random.spread(1, t.min(60))));
            }
            9 if n > 2 => drop(self.core.remove(i)),
            10 => self.newcomers = random.between(4, 30),
            11 => self.sooner = random.spread(0, 20_000),
            12 => self.cost = random.spread(1, 30),
            _ => {
                self.processors = random.pick(&[1, 1, 1, 2, 3, 4]);
                self.copies = random.pick(&[1, 1, 1, 2, 3]);
            }
        }
    }

    pub fn order(&self) -> Order {
        let core = self.core.iter().cycle().take(self.core.len() * self.copies).copied();
        let due = |i: u32| Task::PERIOD.saturating_sub(i * self.sooner);
        let newcomers = (0..self.newcomers).map(|i| task(Task::PERIOD, due(i), self.cost));
        let tasks = core.chain(newcomers).take(32).collect();
        Order { processors: self.processors, tasks }
    }
}

/// Gives a task of the core such a period that the core leaves only little of a processor.
pub fn fill_up(random: &mut Random, core: &mut [Task], i: usize) {
    let others = core.iter().enumerate().filter(|(j, _)| *j != i);
    let used: f64 = others.map(|(_, k)| f64::from(k.c) / f64::from(k.t)).sum();
    let left = 1.0 - f64::from(random.spread(1, 3_000)) / 1e6 - used;
    if left > 0.0 {
        let c = random.pick(&[core[i].c, core[i].c, 1, 2]);
        let t = (f64::from(c) / left).ceil().min(LONGEST) as u32;
        core[i] = task(t, t, c);
    }
}
