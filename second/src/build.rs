//! Builds: the partitions, and each task's member in one of them.

use crate::bits::Layout;
use crate::order::Order;
use crate::response::Roster;
use crate::set;

/// A run of processors.
#[derive(Clone, Copy, Debug, PartialEq, Eq)]
pub struct Partition {
    pub volume: u32,
    pub first: u32,
}

impl Partition {
    /// The first processor past the partition.
    pub fn end(&self) -> u32 {
        self.first + self.volume
    }

    /// Its processors; it is not empty.
    pub fn set(&self) -> u64 {
        set::between(self.first, self.end() - 1)
    }

    /// Whether the two have a processor in common; neither is empty.
    pub fn overlaps(&self, other: &Partition) -> bool {
        self.first < other.end() && other.first < self.end()
    }
}

/// What a build records of a task.
#[derive(Clone, Copy, Debug, Default, PartialEq, Eq)]
pub struct Member {
    pub partition: u32,
    pub rank: u32,
    pub response: u32,
}

/// M, the partitions and the tasks' members.
#[derive(Clone, Debug, PartialEq, Eq)]
pub struct Build {
    pub processors: u32,
    pub partitions: Vec<Partition>,
    pub members: Vec<Member>,
}

impl Build {
    pub const VERSION: u32 = 1;

    /// Version, M, n, p.
    pub const HEADER: Layout<4> = Layout([4, 7, 6, 7]);
    /// Volume, first processor, spare.
    pub const PARTITION: Layout<3> = Layout([7, 6, 3]);
    /// Partition, rank, worst response, spare.
    pub const MEMBER: Layout<4> = Layout([6, 5, 20, 1]);

    /// The length on the wire of a build of p partitions and n tasks.
    pub fn length(p: usize, n: usize) -> usize {
        Self::HEADER.bytes() + p * Self::PARTITION.bytes() + n * Self::MEMBER.bytes()
    }

    /// The build on the wire.
    pub fn bytes(&self) -> Vec<u8> {
        let (p, n) = (self.partitions.len(), self.members.len());
        let mut bytes = Vec::with_capacity(Self::length(p, n));
        let header = [Self::VERSION, self.processors, n as u32, p as u32];
        Self::HEADER.write(header, &mut bytes);
        for part in &self.partitions {
            Self::PARTITION.write([part.volume, part.first, 0], &mut bytes);
        }
        for member in &self.members {
            Self::MEMBER.write([member.partition, member.rank, member.response, 0], &mut bytes);
        }
        bytes
    }

    /// The members of each partition; every member is in one.
    pub fn rosters(&self, order: &Order) -> Vec<Roster> {
        let mut rosters = vec![Roster::default(); self.partitions.len()];
        for (i, (member, &task)) in self.members.iter().zip(&order.tasks).enumerate() {
            rosters[member.partition as usize].add(i, task);
        }
        rosters
    }
}
