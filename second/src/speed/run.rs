//! The run: the script in one pass, then the jobs, each partition from start to start.

use super::check::{checked, Stands};
use super::order::Order;
use super::MOST;
use crate::answer::{Answer, Cause, Refusal};
use crate::script::Record;

/// A record, and once it waits the next one of its task that waits.
struct Job {
    tick: u32,
    length: u32,
    task: u8,
    next: u16,
}

/// Runs a script through a build; writes one finish tick per record.
pub fn run(order: &[u8], build: &[u8], script: &[u8], out: &mut [u32]) -> Answer {
    Answer::from(try_run(order, build, script, out))
}

fn try_run(order: &[u8], build: &[u8], script: &[u8], out: &mut [u32]) -> Result<usize, Refusal> {
    let (order, stands) = checked(order, build)?;
    let (records, rest) = script.as_chunks();
    Cause::ScriptLength.unless(rest.is_empty() && records.len() <= Record::MOST)?;
    let finish = out.get_mut(..records.len()).ok_or(Cause::Places.nowhere())?;
    let mut jobs = legal(&order, records)?;
    let mut machine = Machine::new(&stands);
    machine.run(&mut jobs, &stands, finish);
    Ok(records.len())
}

/// The jobs of a legal script: record by record 41 to 45.
fn legal(order: &Order, records: &[[u8; 6]]) -> Result<Vec<Job>, Refusal> {
    let mut jobs = Vec::with_capacity(records.len());
    let mut earliest = [0; MOST];
    let mut least = 0;
    for (r, &[a, b, c, d, e, f]) in records.iter().enumerate() {
        let bits = u64::from_be_bytes([0, 0, a, b, c, d, e, f]);
        let (tick, task) = ((bits >> 28) as u32, (bits >> 23 & 31) as usize);
        let length = (bits >> 3) as u32 & 0xF_FFFF;
        Cause::ScriptSpare.unless_at(r, bits & 7 == 0)?;
        Cause::NoSuchTask.unless_at(r, task < order.n)?;
        // Tick and task as one number, which rises.
        Cause::RecordOrder.unless_at(r, bits >> 23 >= least)?;
        Cause::JobLength.unless_at(r, length > 0 && length <= order.c[task])?;
        Cause::Gap.unless_at(r, tick >= earliest[task])?;
        least = (bits >> 23) + 1;
        earliest[task] = tick + order.t[task];
        jobs.push(Job { tick, length, task: task as u8, next: 0 });
    }
    Ok(jobs)
}

/// What waits in a partition.
#[derive(Clone, Copy)]
struct Partition {
    /// The tasks with waiting jobs, as bits by rank.
    waiting: u32,
    /// When the next job starts, if one waits; else when the last one ended.
    start: u32,
    /// Its first task's place in the line.
    first: u8,
}

/// The waiting jobs of a task: the oldest, the newest and how many.
#[derive(Clone, Copy, Default)]
struct Queue {
    oldest: u16,
    newest: u16,
    count: u16,
}

/// The partitions, and the tasks' queues by their places in the line.
struct Machine {
    partitions: [Partition; MOST],
    queues: [Queue; MOST],
}

impl Machine {
    fn new(stands: &Stands) -> Machine {
        let partitions = stands.first.map(|first| Partition { waiting: 0, start: 0, first });
        Machine { partitions, queues: [Queue::default(); MOST] }
    }

    /// Record by record: its partition starts what is due before it, then the record joins.
    fn run(&mut self, jobs: &mut [Job], stands: &Stands, finish: &mut [u32]) {
        for r in 0..jobs.len() {
            let (tick, task) = (jobs[r].tick, usize::from(jobs[r].task));
            let partition = &mut self.partitions[usize::from(stands.partition[task])];
            while partition.waiting != 0 && partition.start < tick {
                partition.start_job(&mut self.queues, jobs, finish);
            }
            let place = stands.place[task];
            if partition.waiting == 0 {
                partition.start = partition.start.max(tick);
            }
            partition.waiting |= 1 << (place - partition.first);
            self.queues[usize::from(place)].join(jobs, r);
        }
        for partition in &mut self.partitions {
            while partition.waiting != 0 {
                partition.start_job(&mut self.queues, jobs, finish);
            }
        }
    }
}

impl Partition {
    /// The highest-priority waiting job starts, the oldest first within a task, and runs unbroken.
    fn start_job(&mut self, queues: &mut [Queue; MOST], jobs: &[Job], finish: &mut [u32]) {
        let rank = self.waiting.trailing_zeros() as usize;
        let queue = &mut queues[usize::from(self.first) + rank];
        let r = usize::from(queue.oldest);
        self.start += jobs[r].length;
        finish[r] = self.start;
        queue.oldest = jobs[r].next;
        queue.count -= 1;
        if queue.count == 0 {
            self.waiting &= self.waiting - 1;
        }
    }
}

impl Queue {
    fn join(&mut self, jobs: &mut [Job], r: usize) {
        match self.count {
            0 => self.oldest = r as u16,
            _ => jobs[usize::from(self.newest)].next = r as u16,
        }
        self.newest = r as u16;
        self.count += 1;
    }
}
