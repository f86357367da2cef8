//! The build check.

use crate::answer::{Cause, Refusal};
use crate::build::{Build, Member, Partition};
use crate::order::Order;

/// The order and the build, if every rule holds: the order's 1 to 10, then 20 to 30 in turn.
pub fn check(order: &[u8], build: &[u8]) -> Result<(Order, Build), Refusal> {
    let order = Order::read(order)?;
    let build = read(build, &order)?;
    partitions_apart(&build)?;
    seats_wide_enough(&order, &build)?;
    ranks_and_responses(&order, &build)?;
    Ok((order, build))
}

/// Reads a build of this order: 20 to 23.
pub fn read(bytes: &[u8], order: &Order) -> Result<Build, Refusal> {
    let header = bytes.get(..Build::HEADER.bytes());
    let header = header.ok_or(Cause::BuildShort.nowhere())?;
    let [version, processors, n, p] = Build::HEADER.read(header);
    let (n, p) = (n as usize, p as usize);
    Cause::BuildHeader.unless(
        version == Build::VERSION
            && processors == order.processors
            && n == order.tasks.len()
            && (1..=32).contains(&p),
    )?;
    Cause::BuildLength.unless(bytes.len() == Build::length(p, n))?;
    let records = &bytes[Build::HEADER.bytes()..];
    let (partitions, members) = records.split_at(p * Build::PARTITION.bytes());
    let mut spares = 0;
    let build = Build {
        processors,
        partitions: Build::PARTITION
            .read_all(partitions)
            .map(|[volume, first, spare]| {
                spares |= spare;
                Partition { volume, first }
            })
            .collect(),
        members: Build::MEMBER
            .read_all(members)
            .map(|[partition, rank, response, spare]| {
                spares |= spare;
                Member { partition, rank, response }
            })
            .collect(),
    };
    Cause::BuildSpare.unless(spares == 0)?;
    Ok(build)
}

/// 24: every partition has a processor, none past M, none that an earlier one has.
fn partitions_apart(build: &Build) -> Result<(), Refusal> {
    for (j, part) in build.partitions.iter().enumerate() {
        let inside = part.volume > 0 && part.end() <= build.processors;
        let earlier = &build.partitions[..j];
        let apart = !earlier.iter().any(|other| part.overlaps(other));
        Cause::Partition.unless_at(j, inside && apart)?;
    }
    Ok(())
}

/// 25: every task is in a partition at least as wide as it is.
fn seats_wide_enough(order: &Order, build: &Build) -> Result<(), Refusal> {
    for (i, (task, member)) in order.tasks.iter().zip(&build.members).enumerate() {
        let part = build.partitions.get(member.partition as usize);
        Cause::Member.unless_at(i, part.is_some_and(|part| part.volume >= task.m))?;
    }
    Ok(())
}

/// 26 for all tasks, then task by task 27 to 30.
fn ranks_and_responses(order: &Order, build: &Build) -> Result<(), Refusal> {
    let rosters = build.rosters(order);
    let roster = |member: &Member| &rosters[member.partition as usize];
    for (i, member) in build.members.iter().enumerate() {
        Cause::Rank.unless_at(i, roster(member).rank(i) == Some(member.rank as usize))?;
    }
    for (i, member) in build.members.iter().enumerate() {
        let response = roster(member).response(member.rank as usize);
        let response = response.map_err(|cause| cause.at(i))?;
        Cause::Response.unless_at(i, response == member.response)?;
    }
    Ok(())
}
