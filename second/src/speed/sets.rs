//! The sets of a build's partitions.

use super::check::checked;
use crate::answer::{Answer, Cause, Refusal};

/// The set of each partition of an accepted build.
pub fn partition_sets(order: &[u8], build: &[u8], out: &mut [u64]) -> Answer {
    Answer::from(checked(order, build).and_then(|_| put(build, out)))
}

/// The words, straight from the records.
fn put(build: &[u8], out: &mut [u64]) -> Result<usize, Refusal> {
    let p = usize::from(build[2] & 127);
    let places = out.get_mut(..p).ok_or(Cause::Output.nowhere())?;
    for (set, record) in places.iter_mut().zip(build[3..].chunks_exact(2)) {
        let bits = u16::from_be_bytes([record[0], record[1]]);
        *set = u64::MAX >> (64 - (bits >> 9)) << (bits >> 3 & 63);
    }
    Ok(p)
}
