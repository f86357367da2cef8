//! Release scripts.

use crate::answer::{Cause, Refusal};
use crate::bits::Layout;
use crate::order::Order;

/// One release: a job of a task joins at a tick, and runs for its length.
#[derive(Clone, Copy, Debug, PartialEq, Eq)]
pub struct Record {
    pub tick: u32,
    pub task: usize,
    pub length: u32,
}

impl Record {
    /// Tick, task, length, spare.
    pub const LAYOUT: Layout<4> = Layout([20, 5, 20, 3]);
    /// The most records of a script.
    pub const MOST: usize = 1_024;
}

/// The records of a legal script with enough places: 40, 46, then record by record 41 to 45.
pub fn read(script: &[u8], order: &Order, places: usize) -> Result<Vec<Record>, Refusal> {
    let length = Record::LAYOUT.bytes();
    let fits = script.len().is_multiple_of(length) && script.len() <= length * Record::MOST;
    Cause::ScriptLength.unless(fits)?;
    Cause::Places.unless(script.len() / length <= places)?;

    let mut records: Vec<Record> = Vec::with_capacity(script.len() / length);
    let mut next_release = vec![0; order.tasks.len()];
    for (r, [tick, task, length, spare]) in Record::LAYOUT.read_all(script).enumerate() {
        Cause::ScriptSpare.unless_at(r, spare == 0)?;
        let task = task as usize;
        Cause::NoSuchTask.unless_at(r, task < order.tasks.len())?;
        let rises = records.last().is_none_or(|e| (e.tick, e.task) < (tick, task));
        Cause::RecordOrder.unless_at(r, rises)?;
        Cause::JobLength.unless_at(r, (1..=order.tasks[task].c).contains(&length))?;
        Cause::Gap.unless_at(r, tick >= next_release[task])?;
        next_release[task] = tick + order.tasks[task].t;
        records.push(Record { tick, task, length });
    }
    Ok(records)
}

/// A script on the wire.
pub fn bytes(records: &[Record]) -> Vec<u8> {
    let mut bytes = Vec::new();
    for record in records {
        let fields = [record.tick, record.task as u32, record.length, 0];
        Record::LAYOUT.write(fields, &mut bytes);
    }
    bytes
}
