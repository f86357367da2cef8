//! Builds: where each task runs, and its worst response.

use crate::refusal::Refusal;
use std::fmt;

/// A partition of a build.
#[derive(Clone, Copy, Debug, PartialEq, Eq, Hash)]
pub struct Partition {
    /// How many processors it has.
    pub volume: u32,
    /// The lowest of them.
    pub first: u32,
}

/// What a build says of a task.
#[derive(Clone, Copy, Debug, PartialEq, Eq, Hash)]
pub struct Member {
    /// The partition that it is a member of.
    pub partition: u32,
    /// How many members of that partition have a higher priority.
    pub rank: u32,
    /// Its worst response, in ticks.
    pub response: u32,
}

/// A build that was checked. It displays as the lines of the build printer.
#[derive(Clone, Debug, PartialEq, Eq, Hash)]
pub struct Build {
    /// M.
    pub processors: u32,
    /// Its partitions, by number.
    pub partitions: Vec<Partition>,
    /// Its tasks, by number.
    pub tasks: Vec<Member>,
}

impl Build {
    /// The length of the longest build, in bytes.
    pub const MOST_BYTES: usize = 195;

    /// The most partitions of a build.
    pub const MOST_PARTITIONS: usize = 32;

    /// Checks a build against an order, and gives its fields where every rule holds.
    pub fn read(order: &[u8], build: &[u8]) -> Result<Build, Refusal> {
        crate::check(order, build)?;
        Ok(Build::of_bytes(build))
    }

    /// The fields of a build that was accepted, which has the length that its header says.
    fn of_bytes(build: &[u8]) -> Build {
        let (header, rest) = build.split_at(3);
        let header = number(header);
        let (partitions, tasks) = rest.split_at(2 * (header % 128) as usize);
        Build {
            processors: header >> 13 & 127,
            partitions: partitions.chunks_exact(2).map(number).map(Partition::of_field).collect(),
            tasks: tasks.chunks_exact(4).map(number).map(Member::of_field).collect(),
        }
    }
}

impl Partition {
    /// "volume 7, first processor 6, spare 3"
    fn of_field(field: u32) -> Partition {
        Partition { volume: field >> 9, first: field >> 3 & 63 }
    }
}

impl Member {
    /// "partition 6, rank 5, worst response 20, spare 1"
    fn of_field(field: u32) -> Member {
        Member { partition: field >> 26, rank: field >> 21 & 31, response: field >> 1 & 0xF_FFFF }
    }
}

/// Bytes as one number, most significant first.
fn number(bytes: &[u8]) -> u32 {
    bytes.iter().fold(0, |high, &byte| high << 8 | u32::from(byte))
}

impl fmt::Display for Build {
    fn fmt(&self, to: &mut fmt::Formatter) -> fmt::Result {
        let Build { processors, partitions, tasks } = self;
        writeln!(to, "build {processors} {} {}", tasks.len(), partitions.len())?;
        for (i, Partition { volume, first }) in partitions.iter().enumerate() {
            writeln!(to, "part {i} {volume} {first}")?;
        }
        for (i, Member { partition, rank, response }) in tasks.iter().enumerate() {
            writeln!(to, "task {i} {partition} {rank} {response}")?;
        }
        Ok(())
    }
}
