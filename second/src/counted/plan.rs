//! First fit over trials.

use super::trial::{Known, Line};
use crate::answer::{Cause, Refusal};
use crate::build::{Build, Member, Partition};
use crate::order::Order;
use std::cmp::Reverse;

/// The build of an order, or its refusal; and the terms that it took.
pub fn plan(order: &Order) -> (Result<Build, Refusal>, u64) {
    let mut terms = 0;
    (first_fit(order, &mut terms), terms)
}

fn first_fit(order: &Order, terms: &mut u64) -> Result<Build, Refusal> {
    let mut numbers: Vec<usize> = (0..order.tasks.len()).collect();
    numbers.sort_by_key(|&i| (Reverse(order.tasks[i].m), order.tasks[i].t, i));
    let mut partitions: Vec<Partition> = Vec::new();
    let mut lines: Vec<Line> = Vec::new();
    let mut known = Known::default();
    for i in numbers {
        if lines.iter_mut().any(|line| takes(line, order, i, &mut known, terms)) {
            continue;
        }
        let (volume, first) = (order.tasks[i].m, partitions.last().map_or(0, Partition::end));
        Cause::NoFit.unless_at(i, first + volume <= order.processors)?;
        partitions.push(Partition { volume, first });
        lines.push(Line::default());
        lines.last_mut().map(|line| takes(line, order, i, &mut known, terms));
    }
    let mut members = vec![Member::default(); order.tasks.len()];
    for (partition, line) in lines.iter().enumerate() {
        for (rank, &i) in line.numbers.iter().enumerate() {
            let response = known.worsts[i];
            members[i] = Member { partition: partition as u32, rank: rank as u32, response };
        }
    }
    Ok(Build { processors: order.processors, partitions, members })
}

/// Puts a task into a partition if all pass then.
fn takes(line: &mut Line, order: &Order, i: usize, known: &mut Known, terms: &mut u64) -> bool {
    let mut joined = line.clone();
    let newcomer = joined.put_in(order, i);
    let taken = joined.tries(newcomer, known, terms);
    if taken {
        *line = joined;
    }
    taken
}
