//! Orders: what the box is asked to carry.

use crate::answer::{Cause, Refusal};
use crate::bits::Layout;
use std::ops::RangeInclusive;

/// A rigid sporadic gang: width, period, deadline and run time.
#[derive(Clone, Copy, Debug, Default, PartialEq, Eq)]
pub struct Task {
    pub m: u32,
    pub t: u32,
    pub d: u32,
    pub c: u32,
}

impl Task {
    /// The longest period.
    pub const PERIOD: u32 = 1_000_000;

    /// The ranges, in the order of their numbers; the task's own number is the place.
    fn in_range(&self, task: usize, processors: u32) -> Result<(), Refusal> {
        Cause::Width.unless_at(task, (1..=processors).contains(&self.m))?;
        Cause::Period.unless_at(task, (1..=Task::PERIOD).contains(&self.t))?;
        Cause::Deadline.unless_at(task, (1..=self.t).contains(&self.d))?;
        Cause::RunTime.unless_at(task, (1..=self.d).contains(&self.c))
    }
}

/// M processors and the table of n tasks.
#[derive(Clone, Debug, PartialEq, Eq)]
pub struct Order {
    pub processors: u32,
    pub tasks: Vec<Task>,
}

impl Order {
    pub const VERSION: u32 = 1;
    pub const PROCESSORS: RangeInclusive<u32> = 1..=64;
    pub const TASKS: RangeInclusive<u32> = 1..=32;

    /// Version, M, n, spare.
    pub const HEADER: Layout<4> = Layout([4, 7, 6, 7]);
    /// m, T, D, C, spare.
    pub const TASK: Layout<5> = Layout([7, 20, 20, 20, 5]);
    /// The longest order, in bytes.
    pub const MOST: usize = Self::HEADER.bytes() + 32 * Self::TASK.bytes();
    /// M, n and 32 times (m, T, D, C).
    pub const NUMBERS: usize = 130;

    /// Reads an order: 1 to 6 in turn, then task by task 7 to 10.
    pub fn read(bytes: &[u8]) -> Result<Order, Refusal> {
        let header = bytes.get(..Self::HEADER.bytes());
        let header = header.ok_or(Cause::OrderShort.nowhere())?;
        let [version, processors, n, spare] = Self::HEADER.read(header);
        Cause::OrderVersion.unless(version == Self::VERSION)?;
        Cause::Processors.unless(Self::PROCESSORS.contains(&processors))?;
        Cause::Tasks.unless(Self::TASKS.contains(&n))?;
        let records = &bytes[Self::HEADER.bytes()..];
        Cause::OrderLength.unless(records.len() == n as usize * Self::TASK.bytes())?;
        Cause::OrderSpare.unless(spare == 0)?;
        for (task, [.., spare]) in Self::TASK.read_all(records).enumerate() {
            Cause::OrderSpare.unless_at(task, spare == 0)?;
        }
        let tasks = Self::TASK.read_all(records);
        let tasks = tasks.map(|[m, t, d, c, _]| Task { m, t, d, c }).collect();
        Order { processors, tasks }.in_range()
    }

    /// The order that the writer is given: 13, 3, 4, then task by task 7 to 10.
    pub fn from_columns(processors: u32, columns: [&[u32]; 4]) -> Result<Order, Refusal> {
        let [m, t, d, c] = columns;
        let n = m.len();
        Cause::Columns.unless(columns.iter().all(|column| column.len() == n))?;
        Cause::Processors.unless(Self::PROCESSORS.contains(&processors))?;
        Cause::Tasks.unless((1..=32).contains(&n))?;
        let row = |i| Task { m: m[i], t: t[i], d: d[i], c: c[i] };
        let tasks = (0..n).map(row).collect();
        Order { processors, tasks }.in_range()
    }

    fn in_range(self) -> Result<Order, Refusal> {
        for (i, task) in self.tasks.iter().enumerate() {
            task.in_range(i, self.processors)?;
        }
        Ok(self)
    }

    /// The order on the wire.
    pub fn bytes(&self) -> Vec<u8> {
        let mut bytes = Vec::new();
        let header = [Self::VERSION, self.processors, self.tasks.len() as u32, 0];
        Self::HEADER.write(header, &mut bytes);
        for &Task { m, t, d, c } in &self.tasks {
            Self::TASK.write([m, t, d, c, 0], &mut bytes);
        }
        bytes
    }

    /// The order as numbers, zero past its n tasks.
    pub fn numbers(&self) -> [u32; Self::NUMBERS] {
        let mut numbers = [0; Self::NUMBERS];
        numbers[0] = self.processors;
        numbers[1] = self.tasks.len() as u32;
        for (row, task) in numbers[2..].chunks_exact_mut(4).zip(&self.tasks) {
            row.copy_from_slice(&[task.m, task.t, task.d, task.c]);
        }
        numbers
    }
}
