//! Orders: what a box is asked to carry.

use crate::number::{held, NotHeld, Whole};

/// A task: a rigid gang that is released again and again. Times are in ticks of 10 microseconds.
#[derive(Clone, Copy, Debug, PartialEq, Eq, Hash)]
pub struct Task {
    /// m: how many processors it needs at once, 1 to M.
    pub width: u32,
    /// T: the shortest gap between its releases, 1 to 1,000,000.
    pub period: u32,
    /// D: its deadline, 1 to T.
    pub deadline: u32,
    /// C: its run time, 1 to D.
    pub run: u32,
}

impl Task {
    /// A task of numbers of any width, or the one that is no 32-bit number. The writer judges those that are.
    pub fn of(
        width: impl Whole,
        period: impl Whole,
        deadline: impl Whole,
        run: impl Whole,
    ) -> Result<Task, NotHeld> {
        Ok(Task {
            width: held("task", "width", width)?,
            period: held("task", "period", period)?,
            deadline: held("task", "deadline", deadline)?,
            run: held("task", "run", run)?,
        })
    }
}

/// An order: the box's processors and the tasks to carry.
#[derive(Clone, Debug, PartialEq, Eq, Hash)]
pub struct Order {
    /// M: 1 to 64.
    pub processors: u32,
    /// 1 to 32 tasks.
    pub tasks: Vec<Task>,
}

impl Order {
    /// The length of the longest order, in bytes.
    pub const MOST_BYTES: usize = 291;

    /// The length of the longest text that is written, in bytes.
    pub const MOST_TEXT_BYTES: usize = 960;

    /// An order read, as numbers: M, n, then m, T, D and C of 32 tasks.
    pub(crate) const NUMBERS: usize = 130;

    /// An order of numbers of any width, m, T, D and C in each row, or the one that is no 32-bit number.
    pub fn of<N: Whole>(
        processors: impl Whole,
        rows: impl IntoIterator<Item = [N; 4]>,
    ) -> Result<Order, NotHeld> {
        let task = |[width, period, deadline, run]: [N; 4]| Task::of(width, period, deadline, run);
        let rows = rows.into_iter().enumerate();
        Ok(Order {
            processors: held("order", "processors", processors)?,
            tasks: rows
                .map(|(row, it)| task(it).map_err(|it| it.in_row(row)))
                .collect::<Result<_, _>>()?,
        })
    }

    /// From the numbers of an order that was read.
    pub(crate) fn of_numbers(numbers: &[u32; Order::NUMBERS]) -> Order {
        let [processors, count, table @ ..] = numbers;
        let task = |it: &[u32]| Task { width: it[0], period: it[1], deadline: it[2], run: it[3] };
        let tasks = table.chunks_exact(4).map(task).take(*count as usize).collect();
        Order { processors: *processors, tasks }
    }
}

/// The tasks of an order as the writer takes them: a column for each field.
#[derive(Clone, Copy, Debug, PartialEq, Eq, Hash)]
pub struct Columns<'a> {
    /// m of each task.
    pub widths: &'a [u32],
    /// T of each task.
    pub periods: &'a [u32],
    /// D of each task.
    pub deadlines: &'a [u32],
    /// C of each task.
    pub runs: &'a [u32],
}
