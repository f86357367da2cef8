//! The response test of one partition, as the definition says it.

use crate::answer::Cause;
use crate::order::Task;
use std::ops::RangeInclusive;

/// H, the horizon of the test in ticks.
pub const HORIZON: u32 = 1_000_000;

/// The smallest tick of a range with demand(tick) ≤ tick, where demand never falls.
///
/// Where demand(t) > t, no tick before demand(t) can do either, so the search goes on there.
pub fn smallest(ticks: RangeInclusive<u32>, demand: impl Fn(u32) -> u32) -> Option<u32> {
    let mut t = *ticks.start();
    while t <= *ticks.end() {
        match demand(t) {
            asked if asked <= t => return Some(t),
            asked => t = asked,
        }
    }
    None
}

/// One member among the members of its partition. As C ≤ T, all its sums stay under 2^27.
pub struct Member<'a> {
    task: &'a Task,
    higher: &'a [Task],
    and_higher: &'a [Task],
    pub blocking: u32,
}

impl<'a> Member<'a> {
    /// The member of this rank; members come by falling priority.
    pub fn new(members: &'a [Task], rank: usize) -> Self {
        let lower = members[rank + 1..].iter();
        Member {
            task: &members[rank],
            higher: &members[..rank],
            and_higher: &members[..=rank],
            blocking: lower.map(|task| task.c - 1).max().unwrap_or(0),
        }
    }

    /// Window L: the smallest t from 1 to H with B + Σ ceil(t/T)·C ≤ t over this and higher members.
    pub fn window(&self) -> Option<u32> {
        let work = |t: u32| self.and_higher.iter().map(|k| t.div_ceil(k.t) * k.c).sum::<u32>();
        smallest(1..=HORIZON, |t| self.blocking + work(t))
    }

    /// Start w_q, known not to lie before `least`: the smallest w to H with
    /// B + q·C + Σ (floor(w/T)+1)·C ≤ w over higher members.
    pub fn start(&self, q: u32, least: u32) -> Option<u32> {
        let work = |w: u32| self.higher.iter().map(|k| (w / k.t + 1) * k.c).sum::<u32>();
        smallest(least..=HORIZON, |w| self.blocking + q * self.task.c + work(w))
    }

    /// The worst response if the member passes, else the cause why not.
    pub fn worst_response(&self) -> Result<u32, Cause> {
        let &Task { t, d, c, .. } = self.task;
        let window = self.window().ok_or(Cause::Window)?;
        let (mut worst, mut start) = (0, 0);
        for q in (0..).take_while(|q| q * t < window) {
            start = self.start(q, start).ok_or(Cause::Start)?;
            worst = worst.max(start + c - q * t);
        }
        if worst > d {
            return Err(Cause::Late);
        }
        Ok(worst)
    }

    /// The first job that is late, and its start, of a member that is late in the test.
    pub fn first_late(&self) -> Option<(u32, u32)> {
        let &Task { t, d, c, .. } = self.task;
        let mut starts = (0..).scan(0, |start, q| {
            *start = self.start(q, *start)?;
            Some((q, *start))
        });
        starts.find(|&(q, start)| start + c - q * t > d)
    }
}

/// The members of one partition by falling priority: smaller D, then lower task number.
#[derive(Clone, Debug, Default)]
pub struct Roster {
    pub numbers: Vec<usize>,
    pub tasks: Vec<Task>,
}

impl Roster {
    /// This roster and one more member.
    pub fn with(&self, number: usize, task: Task) -> Roster {
        let mut joined = self.clone();
        joined.add(number, task);
        joined
    }

    /// Takes in a member at its rank.
    pub fn add(&mut self, number: usize, task: Task) {
        let members = self.numbers.iter().zip(&self.tasks);
        let rank = members.take_while(|(&other, of)| (of.d, other) < (task.d, number)).count();
        self.numbers.insert(rank, number);
        self.tasks.insert(rank, task);
    }

    /// Rank: the number of higher-priority members.
    pub fn rank(&self, number: usize) -> Option<usize> {
        self.numbers.iter().position(|&member| member == number)
    }

    /// The worst response of the member of this rank.
    pub fn response(&self, rank: usize) -> Result<u32, Cause> {
        Member::new(&self.tasks, rank).worst_response()
    }

    /// Whether all pass.
    pub fn all_pass(&self) -> bool {
        (0..self.tasks.len()).all(|rank| self.response(rank).is_ok())
    }

    /// All worst responses by rank, if every member passes.
    pub fn responses(&self) -> Result<Vec<u32>, Cause> {
        (0..self.tasks.len()).map(|rank| self.response(rank)).collect()
    }
}

#[cfg(test)]
mod tests {
    use super::*;
    use crate::generate::random::Random;

    /// The search finds what trying every tick finds, at both ends of the range too.
    #[test]
    fn jumps_miss_nothing() {
        let mut random = Random::new(1);
        for _ in 0..20_000 {
            let mut task = || {
                let t = random.between(1, 60);
                (t, random.between(1, t))
            };
            let tasks = [task(), task(), task()];
            let tasks = &tasks[..random.between(1, 3) as usize];
            let base = random.below(40);
            let demand = |t: u32| base + tasks.iter().map(|k| t.div_ceil(k.0) * k.1).sum::<u32>();
            let least = random.between(1, 3);
            let range = least..=least + random.below(400);
            let literal = range.clone().find(|&t| demand(t) <= t);
            assert_eq!(smallest(range, demand), literal, "{base} {tasks:?}");
        }
    }
}
