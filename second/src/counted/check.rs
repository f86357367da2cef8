//! The check's rules of windows and responses, for a build whose other rules hold.

use super::trial::{Known, Line};
use super::verdict::has_window;
use crate::answer::{Cause, Refusal};
use crate::build::Build;
use crate::order::Order;

/// What 27 to 30 come to, task by task, and the terms that it took.
pub fn check(order: &Order, build: &Build) -> (Result<(), Refusal>, u64) {
    let mut terms = 0;
    (responses(order, build, &mut terms), terms)
}

/// The terms of a check that finds every recorded response right, up to the first member that does not pass.
pub fn most_terms(order: &Order, build: &Build) -> u64 {
    let mut terms = 0;
    let tests = Tests::new(order, build, &mut terms);
    let failing = (0..build.members.len()).find(|&i| tests.known.worsts[i] == 0);
    failing.map(|i| tests.why_not(build, i, &mut terms));
    terms
}

/// The worst responses by number, 0 for a member that does not pass, or comes after one by number.
pub fn worst_responses(order: &Order, build: &Build) -> [u32; 32] {
    Tests::new(order, build, &mut 0).known.worsts
}

/// The members of a partition.
pub fn line_of(order: &Order, build: &Build, partition: u32) -> Line {
    let mut line = Line::default();
    for (i, member) in build.members.iter().enumerate() {
        if member.partition == partition {
            line.put_in(order, i);
        }
    }
    line
}

/// The members' tests, partition by partition in rank order; none of a task after one that is known not to pass: no
/// window of such a one closes before that of the one above it.
struct Tests {
    lines: Vec<Line>,
    known: Known,
}

impl Tests {
    fn new(order: &Order, build: &Build, terms: &mut u64) -> Tests {
        let partitions = 0..build.partitions.len() as u32;
        let lines: Vec<Line> = partitions.map(|j| line_of(order, build, j)).collect();
        let mut known = Known::default();
        let mut failing = build.members.len();
        for line in &lines {
            let mut last = 0;
            for (rank, &number) in line.numbers.iter().enumerate() {
                if number > failing {
                    known.lasts[number] = last;
                } else if !line.passes(rank, &mut known, terms) {
                    failing = number;
                }
                last = known.lasts[number];
            }
        }
        Tests { lines, known }
    }

    /// Whether a task that does not pass has no window, or is late.
    fn why_not(&self, build: &Build, i: usize, terms: &mut u64) -> Cause {
        let line = &self.lines[build.members[i].partition as usize];
        let rank = line.numbers.iter().position(|&number| number == i).unwrap_or(0);
        let from = self.known.lasts[i];
        match has_window(&line.rows, rank, line.blocking(rank), from, terms) {
            true => Cause::Late,
            false => Cause::Window,
        }
    }
}

fn responses(order: &Order, build: &Build, terms: &mut u64) -> Result<(), Refusal> {
    let tests = Tests::new(order, build, terms);
    for (i, member) in build.members.iter().enumerate() {
        let worst = tests.known.worsts[i];
        if worst == 0 {
            return Err(tests.why_not(build, i, terms).at(i));
        }
        Cause::Response.unless_at(i, worst == member.response)?;
    }
    Ok(())
}
