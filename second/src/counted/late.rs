//! The search for the first late job of the task that a check names, over the rows of its higher members.

use super::asked::{met, Row};
use super::check::line_of;
use crate::build::Build;
use crate::order::Order;
use crate::response::HORIZON;

/// A job by number, and how long after the begin it starts.
#[derive(Clone, Copy, Debug, PartialEq, Eq)]
pub struct LateJob {
    pub number: u32,
    pub start: u32,
}

/// The first late job of the named task, and the terms that it took beside the check's.
pub fn late(order: &Order, build: &Build, named: usize) -> (LateJob, u64) {
    let line = line_of(order, build, build.members[named].partition);
    let rank = build.members[named].rank as usize;
    let mut terms = 0;
    let job = late_job(&line.rows[..rank], line.blocking(rank), line.rows[rank], &mut terms);
    (job, terms)
}

/// Job by job, each search from the end of the job before it, up to the first that is late.
fn late_job(higher: &[Row], blocking: u32, task: Row, terms: &mut u64) -> LateJob {
    let Row { period, cost, deadline, .. } = task;
    let (mut base, mut release, mut begin, mut number) = (blocking, 0, 0, 0);
    while release < HORIZON {
        let due = release + deadline - cost;
        let search = met(higher, u64::from(base) + 1, begin, due, terms);
        let Some(start) = search.found else {
            return LateJob { number, start: start_from(higher, base, due + 1, terms) };
        };
        begin = start + cost;
        base += cost;
        release += period;
        number += 1;
    }
    LateJob { number, start: 0 }
}

/// Where a search that found nothing by a tick goes on to the start.
fn start_from(higher: &[Row], base: u32, from: u32, terms: &mut u64) -> u32 {
    met(higher, u64::from(base) + 1, from, HORIZON, terms).found.unwrap_or(0)
}
