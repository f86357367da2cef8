//! Orders, one array a field.

use super::MOST;
use crate::answer::{Cause, Refusal};
use crate::order::Task;

/// M and the tasks' numbers.
pub struct Order {
    pub processors: u32,
    pub n: usize,
    pub m: [u32; MOST],
    pub t: [u32; MOST],
    pub d: [u32; MOST],
    pub c: [u32; MOST],
}

impl Order {
    /// Reads an order: 1 to 6 in turn, then task by task 7 to 10.
    pub fn read(bytes: &[u8]) -> Result<Order, Refusal> {
        let Some((&[a, b, c], records)) = bytes.split_first_chunk() else {
            return Err(Cause::OrderShort.nowhere());
        };
        let header = u32::from_be_bytes([0, a, b, c]);
        let (processors, n) = (header >> 13 & 127, (header >> 7 & 63) as usize);
        Cause::OrderVersion.unless(header >> 20 == 1)?;
        Cause::Processors.unless((1..=64).contains(&processors))?;
        Cause::Tasks.unless((1..=MOST).contains(&n))?;
        Cause::OrderLength.unless(records.len() == 9 * n)?;
        Cause::OrderSpare.unless(header & 127 == 0)?;
        let zeros = [0; MOST];
        let mut order = Order { processors, n, m: zeros, t: zeros, d: zeros, c: zeros };
        order.read_tasks(records)?;
        Ok(order)
    }

    /// The tasks' records, with spare bits before ranges.
    fn read_tasks(&mut self, records: &[u8]) -> Result<(), Refusal> {
        let mut ranges = Ok(());
        for (i, record) in records.chunks_exact(9).enumerate() {
            let (Some((&front, _)), last) = (record.split_first_chunk(), record[8]) else { break };
            let front = u64::from_be_bytes(front);
            Cause::OrderSpare.unless_at(i, last & 31 == 0)?;
            self.m[i] = (front >> 57) as u32;
            self.t[i] = (front >> 37) as u32 & 0xF_FFFF;
            self.d[i] = (front >> 17) as u32 & 0xF_FFFF;
            self.c[i] = (front as u32 & 0x1_FFFF) << 3 | u32::from(last) >> 5;
            if ranges.is_ok() {
                ranges = self.in_range(i);
            }
        }
        ranges
    }

    fn in_range(&self, i: usize) -> Result<(), Refusal> {
        let (m, t, d, c) = (self.m[i], self.t[i], self.d[i], self.c[i]);
        Cause::Width.unless_at(i, (1..=self.processors).contains(&m))?;
        Cause::Period.unless_at(i, (1..=Task::PERIOD).contains(&t))?;
        Cause::Deadline.unless_at(i, (1..=t).contains(&d))?;
        Cause::RunTime.unless_at(i, (1..=d).contains(&c))
    }
}
