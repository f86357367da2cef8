//! The step machine, taken from start to start rather than tick by tick.

use crate::build::Build;
use crate::script::Record;
use std::cmp::Reverse;
use std::collections::BinaryHeap;

/// The finish tick of every record of a legal script in a checked build.
pub fn finish_ticks(build: &Build, records: &[Record]) -> Vec<u32> {
    let mut finish = vec![0; records.len()];
    for partition in 0..build.partitions.len() as u32 {
        run_partition(build, partition, records, &mut finish);
    }
    finish
}

/// Runs one partition's jobs; what the others do is nothing to it.
fn run_partition(build: &Build, partition: u32, records: &[Record], finish: &mut [u32]) {
    let member = |r: usize| build.members[records[r].task];
    let of_partition = |&r: &usize| member(r).partition == partition;
    let mut releases = (0..records.len()).filter(of_partition).peekable();
    // By rank, then by record: the highest priority first, the oldest first within a task.
    let mut waiting = BinaryHeap::new();
    let mut tick = 0;
    loop {
        while let Some(r) = releases.next_if(|&r| records[r].tick <= tick) {
            waiting.push(Reverse((member(r).rank, r)));
        }
        if let Some(Reverse((_, r))) = waiting.pop() {
            tick += records[r].length;
            finish[r] = tick;
        } else if let Some(&r) = releases.peek() {
            tick = records[r].tick;
        } else {
            return;
        }
    }
}
