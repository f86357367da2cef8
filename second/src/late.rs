//! The late frame: a script in which a task that the check names late is late in the box.

use crate::answer::{Cause, Refusal};
use crate::build::Build;
use crate::check;
use crate::machine;
use crate::order::Order;
use crate::response::Member;
use crate::script::Record;
use std::cmp::Reverse;

/// A build whose check names a task late: that task, and the script, of any length, that shows it.
pub struct Late {
    pub order: Order,
    pub build: Build,
    pub task: usize,
    pub script: Vec<Record>,
    /// The tick at which the late job ends, by the test.
    pub finish: u32,
}

/// The script of a build that is refused 29: the order's 1 to 10, 63, 64.
pub fn script(order: &[u8], build: &[u8]) -> Result<Vec<Record>, Refusal> {
    let late = Late::new(order, build)?;
    Cause::ManyRecords.unless(late.script.len() <= Record::MOST)?;
    Ok(late.script)
}

impl Late {
    /// The order's 1 to 10, then 63.
    pub fn new(order_bytes: &[u8], build_bytes: &[u8]) -> Result<Late, Refusal> {
        let order = Order::read(order_bytes)?;
        let Err(Refusal { cause: Cause::Late, place: Some(task) }) =
            check::check(order_bytes, build_bytes)
        else {
            return Err(Cause::NotLate.nowhere());
        };
        let build = check::read(build_bytes, &order)?;
        Ok(Late::of(order, build, task))
    }

    /// Every release of every task that comes, laid on one list and then sorted.
    fn of(order: Order, build: Build, task: usize) -> Late {
        let of_task = build.members[task];
        let roster = build.rosters(&order).swap_remove(of_task.partition as usize);
        let rank = of_task.rank as usize;
        let member = Member::new(&roster.tasks, rank);
        let (q, start) = member.first_late().expect("a late job");
        let begin = u32::from(member.blocking > 0);
        let mut script = Vec::new();
        let mut comes = |i: usize, first: u32, last: u32| {
            let of = order.tasks[i];
            let ticks = (first..=last).step_by(of.t as usize);
            script.extend(ticks.map(|tick| Record { tick, task: i, length: of.c }));
        };
        if begin > 0 {
            let lower = roster.numbers[rank + 1..].iter().copied();
            let blocker = lower.min_by_key(|&i| (Reverse(order.tasks[i].c), i));
            blocker.into_iter().for_each(|i| comes(i, 0, 0));
        }
        comes(task, begin, begin + q * order.tasks[task].t);
        roster.numbers[..rank].iter().for_each(|&i| comes(i, begin, begin + start));
        script.sort_by_key(|record| (record.tick, record.task));
        let finish = begin + start + order.tasks[task].c;
        Late { order, build, task, script, finish }
    }

    /// How many jobs of the task it takes.
    pub fn jobs(&self) -> usize {
        self.script.iter().filter(|record| record.task == self.task).count()
    }

    /// Whether a legal script shows it in the step machine: of the task's jobs the last ends when the test says,
    /// and it alone after its deadline.
    pub fn is_shown_by(&self, script: &[Record]) -> bool {
        let finish = machine::finish_ticks(&self.build, script);
        let of_task = script.iter().zip(finish).filter(|(job, _)| job.task == self.task);
        let jobs: Vec<(u32, u32)> = of_task.map(|(job, finish)| (job.tick, finish)).collect();
        let in_time = |&(tick, finish): &(u32, u32)| finish <= tick + self.order.tasks[self.task].d;
        let Some((last, earlier)) = jobs.split_last() else { return false };
        earlier.iter().all(in_time) && !in_time(last) && last.1 == self.finish
    }
}
