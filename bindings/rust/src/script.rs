//! Release scripts: which job comes when.

use crate::number::{held_up_to, NotHeld, Whole};

/// A record of a script.
#[derive(Clone, Copy, Debug, PartialEq, Eq, Hash)]
pub struct Release {
    /// The tick of the release.
    pub tick: u32,
    /// The task released.
    pub task: u32,
    /// The job's length, 1 to C.
    pub duration: u32,
}

impl Release {
    /// The most records of a script.
    pub const MOST_RECORDS: usize = 1_024;

    /// The length of a record, in bytes.
    pub const BYTES: usize = 6;

    /// The length of the longest script, in bytes.
    pub const MOST_SCRIPT_BYTES: usize = Release::MOST_RECORDS * Release::BYTES;

    /// What a field of 20 bits holds, and one of 5.
    const MOST_TICK: u32 = (1 << 20) - 1;
    const MOST_TASK: u32 = (1 << 5) - 1;

    /// A record of numbers of any width, or the one that is more than its field holds.
    pub fn of(
        tick: impl Whole,
        task: impl Whole,
        duration: impl Whole,
    ) -> Result<Release, NotHeld> {
        Ok(Release {
            tick: held_up_to(Release::MOST_TICK, "record", "tick", tick)?,
            task: held_up_to(Release::MOST_TASK, "record", "task", task)?,
            duration: held_up_to(Release::MOST_TICK, "record", "duration", duration)?,
        })
    }

    /// "tick 20, task 5, length 20, spare 3"
    fn bytes(&self) -> Result<[u8; Release::BYTES], NotHeld> {
        let Release { tick, task, duration } = Release::of(self.tick, self.task, self.duration)?;
        let record = u64::from(tick) << 28 | u64::from(task) << 23 | u64::from(duration) << 3;
        let [_, _, bytes @ ..] = record.to_be_bytes();
        Ok(bytes)
    }

    /// The fields of a record; none where a spare bit is set.
    fn of_bytes(bytes: &[u8]) -> Option<Release> {
        let record = bytes.iter().fold(0u64, |high, &byte| high << 8 | u64::from(byte));
        let field = |at: u32, most: u32| (record >> at) as u32 & most;
        (field(0, 7) == 0).then_some(Release {
            tick: field(28, Release::MOST_TICK),
            task: field(23, Release::MOST_TASK),
            duration: field(3, Release::MOST_TICK),
        })
    }
}

/// Writes a script, or says which record has a number that its field does not hold. The run says whether it is legal.
pub fn write_script(releases: &[Release]) -> Result<Vec<u8>, NotHeld> {
    let bytes = |(row, it): (usize, &Release)| it.bytes().map_err(|it| it.in_row(row));
    let records: Vec<_> = releases.iter().enumerate().map(bytes).collect::<Result<_, _>>()?;
    Ok(records.concat())
}

/// The records of a script; none where its bytes are no whole records, or a spare bit is set.
pub fn read_script(script: &[u8]) -> Option<Vec<Release>> {
    let records = script.chunks_exact(Release::BYTES);
    let whole = records.remainder().is_empty();
    records.map(Release::of_bytes).collect::<Option<_>>().filter(|_| whole)
}
