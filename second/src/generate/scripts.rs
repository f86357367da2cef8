//! Random scripts.

use super::damage::Section;
use super::random::Random;
use super::Scale;
use crate::bits::mask;
use crate::order::Order;
use crate::script::Record;

/// The last tick that a record's field holds.
const LAST: u32 = (1 << 20) - 1;

/// A legal script: tight or loose, from a common first tick or not, full lengths or any.
pub fn legal(random: &mut Random, order: &Order, scale: &Scale) -> Vec<Record> {
    let wanted = match random.below(8) {
        0 => scale.records,
        1 => random.between(0, scale.records),
        _ => random.spread(0, scale.records / 8),
    };
    let common = random.one_in(2);
    let (first, loose, full) = (random.spread(0, scale.period), random.below(3), random.one_in(2));
    let mut next: Vec<u32> = order
        .tasks
        .iter()
        .map(|task| if common { first } else { random.spread(0, 2 * task.t) })
        .collect();
    let mut records = Vec::new();
    for _ in 0..wanted {
        let task = random.below(next.len() as u32) as usize;
        let of = order.tasks[task];
        let slack = match loose {
            0 => 0,
            1 => random.spread(0, of.t),
            _ => random.spread(0, 4 * of.t) * random.below(2),
        };
        let tick = next[task] + slack;
        if tick > LAST {
            continue;
        }
        let length = if full { of.c } else { random.spread(1, of.c) };
        records.push(Record { tick, task, length });
        next[task] = tick + of.t;
    }
    records.sort_by_key(|record| (record.tick, record.task));
    records
}

/// A legal script of so many records, or of as many as the ticks allow: every task again and again, soon after its period.
pub fn dense(random: &mut Random, order: &Order, records: usize) -> Vec<Record> {
    let tasks = &order.tasks;
    let mut next: Vec<u32> = tasks.iter().map(|task| random.below(task.t)).collect();
    let mut script = Vec::with_capacity(records);
    while script.len() < records {
        let soonest = (0..next.len()).min_by_key(|&task| (next[task], task));
        let Some(task) = soonest.filter(|&task| next[task] <= LAST) else { break };
        let length = random.between(1, tasks[task].c);
        script.push(Record { tick: next[task], task, length });
        next[task] += tasks[task].t + random.below(tasks[task].t / 8 + 1);
    }
    script
}

/// Breaks one rule of a script, or none if it is too short for that.
pub fn misdraw(random: &mut Random, records: &mut Vec<Record>) {
    let n = records.len() as u32;
    if n == 0 {
        return;
    }
    let at = random.below(n) as usize;
    match random.below(5) {
        0 => records.swap(at, random.below(n) as usize),
        1 => records.insert(at, records[at]),
        2 => {
            let tick = records[at].tick + random.between(1, 3);
            let again = Record { tick: tick & mask(20), ..records[at] };
            records.push(again);
            records.sort_by_key(|record| (record.tick, record.task));
        }
        3 => records[at].length += random.between(1, 3),
        _ => records[at].task = random.between(0, 31) as usize,
    }
}

/// The fields of a script on the wire.
pub fn sections(records: &[Record]) -> Vec<Section> {
    vec![Section::new(&Record::LAYOUT.0, records.len())]
}
