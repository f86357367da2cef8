//! Random builds: drawn by hand rather than by first fit.

use super::damage::Section;
use super::random::Random;
use crate::build::{Build, Member, Partition};
use crate::order::Order;
use crate::response::Roster;

/// A build with sound ranks, and sound responses where the members pass.
///
/// Partitions lie in any order on the processors, some of them empty or wider than needed.
pub fn by_hand(random: &mut Random, order: &Order) -> Build {
    let rosters = if random.one_in(4) { blind(random, order) } else { sensible(random, order) };
    laid_out(random, order, rosters)
}

/// Such a build with any task in any of a few partitions.
pub fn blindly(random: &mut Random, order: &Order) -> Build {
    let rosters = blind(random, order);
    laid_out(random, order, rosters)
}

/// The build of these members, those of the last partitions moved to the first where processors are short.
fn laid_out(random: &mut Random, order: &Order, mut rosters: Vec<Roster>) -> Build {
    while width(&rosters) > order.processors && rosters.len() > 1 {
        merge_last(order, &mut rosters);
    }
    add_empty(random, order, &mut rosters);
    let partitions = lay_out(random, order, &rosters);
    Build { processors: order.processors, partitions, members: members(random, order, &rosters) }
}

/// The build with all tasks in one partition, with sound ranks, and sound responses where they pass.
pub fn all_in_one(order: &Order) -> Build {
    with_responses(order, ranked_in_one(order))
}

/// The build with all tasks in one partition, with sound ranks and no responses.
pub fn ranked_in_one(order: &Order) -> Build {
    let whole = Partition { volume: order.processors, first: 0 };
    ranked(order, vec![whole], &vec![0; order.tasks.len()])
}

/// The build with each task in its partition, each of one processor, with sound ranks, and sound responses where they pass.
pub fn at_homes(order: &Order, homes: &[u32]) -> Build {
    let last = homes.iter().copied().max().unwrap_or(0);
    let partitions = (0..=last).map(|first| Partition { volume: 1, first }).collect();
    with_responses(order, ranked(order, partitions, homes))
}

/// The build with each task in its partition, with sound ranks and no responses.
fn ranked(order: &Order, partitions: Vec<Partition>, homes: &[u32]) -> Build {
    let member = |&partition| Member { partition, ..Member::default() };
    let members = homes.iter().map(member).collect();
    let mut build = Build { processors: order.processors, partitions, members };
    for roster in build.rosters(order) {
        for (rank, &i) in roster.numbers.iter().enumerate() {
            build.members[i].rank = rank as u32;
        }
    }
    build
}

/// With the responses of all that pass.
fn with_responses(order: &Order, mut build: Build) -> Build {
    let rosters = build.rosters(order);
    for member in &mut build.members {
        let roster = &rosters[member.partition as usize];
        member.response = roster.response(member.rank as usize).unwrap_or(0);
    }
    build
}

/// Gives one member another partition, rank or response, or one partition other processors.
pub fn misdraw(random: &mut Random, build: &mut Build) {
    let chosen = random.below(build.members.len() as u32) as usize;
    let member = &mut build.members[chosen];
    let beside = |number: u32, more: bool| if more { number + 1 } else { number.saturating_sub(1) };
    match random.below(4) {
        0 => member.partition = random.below(build.partitions.len() as u32 + 1),
        1 => member.rank = beside(member.rank, random.one_in(2)),
        2 => member.response = beside(member.response, random.one_in(2)),
        _ => {
            let chosen = random.below(build.partitions.len() as u32) as usize;
            let part = &mut build.partitions[chosen];
            if random.one_in(2) {
                part.volume = beside(part.volume, random.one_in(2));
            } else {
                part.first = beside(part.first, random.one_in(2));
            }
        }
    }
}

/// The fields of a build on the wire.
pub fn sections(build: &Build) -> Vec<Section> {
    vec![
        Section::new(&Build::HEADER.0, 1),
        Section::new(&Build::PARTITION.0, build.partitions.len()),
        Section::new(&Build::MEMBER.0, build.members.len()),
    ]
}

/// Tasks in random order, each where it and the members pass, or in a new partition.
fn sensible(random: &mut Random, order: &Order) -> Vec<Roster> {
    let mut numbers: Vec<usize> = (0..order.tasks.len()).collect();
    random.shuffle(&mut numbers);
    let mut rosters: Vec<Roster> = Vec::new();
    for i in numbers {
        random.shuffle(&mut rosters);
        let mut takers = rosters.iter_mut().filter_map(|roster| {
            let joined = roster.with(i, order.tasks[i]);
            joined.all_pass().then_some((roster, joined))
        });
        if let Some((roster, joined)) = takers.next() {
            *roster = joined;
        } else {
            drop(takers);
            rosters.push(Roster::default().with(i, order.tasks[i]));
        }
    }
    rosters
}

/// Any task in any of a few partitions.
fn blind(random: &mut Random, order: &Order) -> Vec<Roster> {
    let p = random.spread(1, order.tasks.len() as u32);
    let mut rosters = vec![Roster::default(); p as usize];
    for (i, &task) in order.tasks.iter().enumerate() {
        rosters[random.below(p) as usize].add(i, task);
    }
    rosters
}

/// The width that a partition needs.
fn volume(roster: &Roster) -> u32 {
    roster.tasks.iter().map(|task| task.m).max().unwrap_or(1)
}

/// The width that all need together.
fn width(rosters: &[Roster]) -> u32 {
    rosters.iter().map(volume).sum()
}

/// Moves the members of the last partition to the first.
fn merge_last(order: &Order, rosters: &mut Vec<Roster>) {
    let last = rosters.pop().unwrap_or_default();
    for i in last.numbers {
        rosters[0].add(i, order.tasks[i]);
    }
}

/// Adds some or many partitions without members, as far as processors are left.
fn add_empty(random: &mut Random, order: &Order, rosters: &mut Vec<Roster>) {
    let more = match random.below(8) {
        0 => 32,
        1 | 2 => random.spread(1, 32),
        _ => 0,
    };
    for _ in 0..more {
        if rosters.len() < 32 && width(rosters) < order.processors {
            let at = random.below(rosters.len() as u32 + 1);
            rosters.insert(at as usize, Roster::default());
        }
    }
}

/// Places for the partitions, apart and in any order, the processors left over shared out.
fn lay_out(random: &mut Random, order: &Order, rosters: &[Roster]) -> Vec<Partition> {
    let mut left = order.processors.saturating_sub(width(rosters));
    let mut partitions: Vec<Partition> =
        rosters.iter().map(|roster| Partition { volume: volume(roster), first: 0 }).collect();
    let mut turns: Vec<usize> = (0..partitions.len()).collect();
    random.shuffle(&mut turns);
    let mut first = 0;
    for j in turns {
        let gap = random.spread(0, left);
        let slack = random.spread(0, left - gap);
        left -= gap + slack;
        partitions[j].first = first + gap;
        partitions[j].volume += slack;
        first = partitions[j].end();
    }
    partitions
}

/// The tasks' members; a member that does not pass gets some response.
fn members(random: &mut Random, order: &Order, rosters: &[Roster]) -> Vec<Member> {
    let mut members = vec![Member::default(); order.tasks.len()];
    for (partition, roster) in rosters.iter().enumerate() {
        for (rank, &i) in roster.numbers.iter().enumerate() {
            let response = roster.response(rank).ok();
            members[i] = Member {
                partition: partition as u32,
                rank: rank as u32,
                response: response.unwrap_or(random.between(1, order.tasks[i].d)),
            };
        }
    }
    members
}
