//! First fit by decreasing volume.

use super::members::Members;
use super::order::Order;
use super::MOST;
use crate::answer::{Answer, Cause, Refusal};
use crate::response::HORIZON;

/// An open partition.
struct Partition {
    volume: u32,
    first: u32,
    members: Members,
}

/// Makes the build of an order.
pub fn plan(order: &[u8], out: &mut [u8]) -> Answer {
    Answer::from(try_plan(order, out))
}

fn try_plan(order: &[u8], out: &mut [u8]) -> Result<usize, Refusal> {
    let order = Order::read(order)?;
    let partitions = first_fit(&order)?;
    let size = 3 + 2 * partitions.len() + 4 * order.n;
    let out = out.get_mut(..size).ok_or(Cause::Output.nowhere())?;
    write(&order, &partitions, out);
    Ok(size)
}

/// The partitions with their members, or 11 at the task that finds no place.
fn first_fit(order: &Order) -> Result<Vec<Partition>, Refusal> {
    let mut partitions: Vec<Partition> = Vec::with_capacity(order.n);
    let mut used = 0;
    for &key in &by_volume(order)[..order.n] {
        let i = (key & 31) as usize;
        if !partitions.iter_mut().any(|partition| partition.members.try_insert(order, i)) {
            let volume = order.m[i];
            Cause::NoFit.unless_at(i, used + volume <= order.processors)?;
            let mut members = Members::none();
            members.push(order, i);
            partitions.push(Partition { volume, first: used, members });
            used += volume;
        }
    }
    Ok(partitions)
}

/// The tasks by larger m, then smaller T, then lower number, each as one number that ends in its own.
fn by_volume(order: &Order) -> [u32; MOST] {
    let mut keys = [u32::MAX; MOST];
    for (i, key) in keys[..order.n].iter_mut().enumerate() {
        *key = (64 - order.m[i]) << 25 | order.t[i] << 5 | i as u32;
    }
    keys[..order.n].sort_unstable();
    keys
}

/// Writes the build with the final ranks and worst responses; every member passed.
fn write(order: &Order, partitions: &[Partition], out: &mut [u8]) {
    let (n, p) = (order.n as u32, partitions.len() as u32);
    let header = 1 << 20 | order.processors << 13 | n << 7 | p;
    let (head, records) = out.split_at_mut(3);
    head.copy_from_slice(&header.to_be_bytes()[1..]);
    let (volumes, stands) = records.split_at_mut(2 * partitions.len());
    for (j, (partition, record)) in partitions.iter().zip(volumes.chunks_exact_mut(2)).enumerate() {
        let bits = (partition.volume << 9 | partition.first << 3) as u16;
        record.copy_from_slice(&bits.to_be_bytes());
        let members = &partition.members;
        let longest = members.longest_below(|_| false);
        for (rank, &task) in members.task[..members.count].iter().enumerate() {
            let response = members.worst_response(0, rank, longest[rank], HORIZON).unwrap_or(0);
            let bits = (j as u32) << 26 | (rank as u32) << 21 | response << 1;
            let at = 4 * usize::from(task);
            stands[at..at + 4].copy_from_slice(&bits.to_be_bytes());
        }
    }
}
