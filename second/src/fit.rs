//! First fit by decreasing volume.

use crate::answer::{Cause, Refusal};
use crate::build::{Build, Member, Partition};
use crate::order::Order;
use crate::response::Roster;
use std::cmp::Reverse;

/// An open partition with its members.
struct Open {
    partition: Partition,
    roster: Roster,
}

/// The build of an order, or 11 at the task that finds no place.
pub fn first_fit(order: &Order) -> Result<Build, Refusal> {
    let mut open: Vec<Open> = Vec::new();
    for i in by_volume(order) {
        if !join(&mut open, order, i) {
            let task = order.tasks[i];
            let partition = Partition {
                volume: task.m,
                first: open.last().map_or(0, |last| last.partition.end()),
            };
            Cause::NoFit.unless_at(i, partition.end() <= order.processors)?;
            // Alone, a task always passes.
            open.push(Open { partition, roster: Roster::default().with(i, task) });
        }
    }
    Ok(record(order, &open))
}

/// The tasks by larger m, then smaller T, then lower number.
fn by_volume(order: &Order) -> Vec<usize> {
    let mut numbers: Vec<usize> = (0..order.tasks.len()).collect();
    numbers.sort_by_key(|&i| (Reverse(order.tasks[i].m), order.tasks[i].t, i));
    numbers
}

/// Puts a task in the lowest-numbered partition where it and all members there pass.
///
/// Wide tasks come first, so every open partition is wide enough.
fn join(open: &mut [Open], order: &Order, i: usize) -> bool {
    open.iter_mut().any(|part| {
        let roster = part.roster.with(i, order.tasks[i]);
        let passes = roster.all_pass();
        if passes {
            part.roster = roster;
        }
        passes
    })
}

/// The build with the final ranks and worst responses.
fn record(order: &Order, open: &[Open]) -> Build {
    let mut members = vec![Member::default(); order.tasks.len()];
    for (partition, Open { roster, .. }) in open.iter().enumerate() {
        let responses = roster.responses().expect("every member passed");
        for (rank, (&i, response)) in roster.numbers.iter().zip(responses).enumerate() {
            members[i] = Member { partition: partition as u32, rank: rank as u32, response };
        }
    }
    Build {
        processors: order.processors,
        partitions: open.iter().map(|part| part.partition).collect(),
        members,
    }
}
