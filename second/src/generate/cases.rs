//! Random cases.

use super::random::Random;
use super::{builds, damage, late, lists, orders, scripts, texts, Scale};
use crate::build::Build;
use crate::case::{Case, Operation};
use crate::fit::first_fit;
use crate::late::Late;
use crate::order::{Order, Task};
use crate::script::{self, Record};
use crate::{list, text};

/// The groups of some operations, and how many of so many cases each of them gets.
pub fn shares(operations: &[Operation], cases: u64) -> Vec<(Vec<Operation>, u64)> {
    let share = |group: Vec<Operation>| {
        let share = cases * group.len() as u64 / operations.len() as u64;
        (group, share)
    };
    Operation::groups(operations).into_iter().map(share).collect()
}

/// So many cases of some operations: those that were typed, then group by group those of a seed.
pub fn drawn(seed: u64, cases: u64, operations: &[Operation]) -> impl Iterator<Item = Case> + '_ {
    let typed = typed().filter(|case| operations.contains(&case.operation()));
    let random = shares(operations, cases).into_iter().flat_map(move |(group, cases)| {
        (0..cases).map(move |index| nth(seed, index, &group, &Scale::FULL))
    });
    typed.chain(random)
}

/// The texts and lists that were typed, and the orders and sets of those that are accepted; there is some more room than
/// needed. The late builds that were typed, in the room that they name.
pub fn typed() -> impl Iterator<Item = Case> {
    typed_texts().chain(typed_lists()).chain(typed_late())
}

fn typed_late() -> impl Iterator<Item = Case> {
    let case = |late::Typed { order, build, room, .. }| Case::Late {
        order: order.bytes(),
        build: build.bytes(),
        room,
    };
    late::typed().into_iter().map(case)
}

fn typed_lists() -> impl Iterator<Item = Case> {
    lists::typed().into_iter().flat_map(|lists::Typed { text, .. }| {
        let set = list::read(&text).ok();
        let write = set.map(|set| Case::WriteList { set, room: list::write(set).len() + 8 });
        [Some(Case::ReadList { text }), write].into_iter().flatten()
    })
}

fn typed_texts() -> impl Iterator<Item = Case> {
    texts::typed().into_iter().flat_map(|texts::Typed { processors, text, .. }| {
        let order = text::read(processors, &text).ok();
        let needed = order.as_ref().map_or(0, |order| order.bytes().len());
        let write = order.map(|order| Case::WriteText {
            room: text::write(&order).len() + 8,
            order: order.bytes(),
        });
        let read = Case::ReadText { processors, text, room: needed + 8 };
        [Some(read), write].into_iter().flatten()
    })
}

/// The case of this index among those of a seed; the operations take turns.
pub fn nth(seed: u64, index: u64, operations: &[Operation], scale: &Scale) -> Case {
    let operation = operations[(index % operations.len() as u64) as usize];
    draw(&mut Random::nth(seed, index), operation, scale)
}

/// A random case of an operation.
fn draw(random: &mut Random, operation: Operation, scale: &Scale) -> Case {
    match operation {
        Operation::Read => read(random, scale),
        Operation::Write => write(random, scale),
        Operation::Plan => plan(random, scale),
        Operation::Check => check(random, scale),
        Operation::Run => run(random, scale),
        Operation::ReadText => read_text(random, scale),
        Operation::WriteText => write_text(random, scale),
        Operation::WriteList => write_list(random),
        Operation::ReadList => Case::ReadList { text: lists::text(random) },
        Operation::PartitionSets => partition_sets(random, scale),
        Operation::Late => late(random, scale),
    }
}

/// An order that first fit accepts, if one of a few does.
fn acceptable(random: &mut Random, scale: &Scale) -> Order {
    let accepted = |order: &Order| first_fit(order).is_ok();
    let soon = (0..3).map(|_| orders::order(random, scale)).find(accepted);
    soon.unwrap_or_else(|| orders::order(random, scale))
}

/// An order's bytes, damaged once in so many times.
fn order_bytes(random: &mut Random, order: &Order, damaged: u32) -> Vec<u8> {
    let mut bytes = order.bytes();
    if random.one_in(damaged) {
        damage::damage(random, &mut bytes, &orders::sections(order));
    }
    bytes
}

/// A build by first fit or by hand.
fn build(random: &mut Random, order: &Order) -> Build {
    let planned = random.one_in(2).then(|| first_fit(order));
    match planned {
        Some(Ok(build)) => build,
        _ => builds::by_hand(random, order),
    }
}

/// A build's bytes, damaged once in so many times.
fn build_bytes(random: &mut Random, build: &Build, damaged: u32) -> Vec<u8> {
    let mut bytes = build.bytes();
    if random.one_in(damaged) {
        damage::damage(random, &mut bytes, &builds::sections(build));
    }
    bytes
}

/// Room that is mostly enough, often just so or just short.
fn room(random: &mut Random, needed: usize) -> usize {
    match random.below(8) {
        0 => needed.saturating_sub(1),
        1 => random.below(needed as u32 + 1) as usize,
        2 | 3 => needed + random.spread(1, 200) as usize,
        _ => needed,
    }
}

/// An order to read, damaged or not.
fn read(random: &mut Random, scale: &Scale) -> Case {
    let order = orders::order(random, scale);
    Case::Read { order: order_bytes(random, &order, 2) }
}

/// An order in columns, spoilt or not.
fn write(random: &mut Random, scale: &Scale) -> Case {
    let order = orders::order(random, scale);
    let column = |field: fn(&Task) -> u32| order.tasks.iter().map(field).collect();
    let mut processors = order.processors;
    let mut columns = [
        column(|task| task.m),
        column(|task| task.t),
        column(|task| task.d),
        column(|task| task.c),
    ];
    if random.one_in(2) {
        spoil(random, &mut processors, &mut columns);
    }
    Case::Write { processors, columns, room: room(random, order.bytes().len()) }
}

/// Spoils M, n, the length of a column or one number in it.
fn spoil(random: &mut Random, processors: &mut u32, columns: &mut [Vec<u32>; 4]) {
    let chosen = random.below(4) as usize;
    match random.below(8) {
        0 => *processors = random.pick(&[0, 65, 64, 128 + *processors, u32::MAX]),
        1 => {
            let n = random.pick(&[0, 32, 33, 64]);
            columns.iter_mut().for_each(|column| column.resize(n, 1));
        }
        2 => {
            let longest = columns[chosen].len() as u32 + 1;
            columns[chosen].resize(random.between(0, longest) as usize, 1);
        }
        _ => {
            let row = random.below(columns[chosen].len() as u32) as usize;
            let number = &mut columns[chosen][row];
            let (more, less) = (*number + 1, *number - 1);
            *number = random.pick(&[0, more, less, 1_000_001, 1 << 20, u32::MAX]);
        }
    }
}

/// An order to plan, and room around what its build takes.
fn plan(random: &mut Random, scale: &Scale) -> Case {
    let order = orders::order(random, scale);
    let needed = first_fit(&order).map_or(195, |build| build.bytes().len());
    Case::Plan { order: order_bytes(random, &order, 6), room: room(random, needed) }
}

/// An order and a build, damaged or not.
fn check(random: &mut Random, scale: &Scale) -> Case {
    let order = orders::order(random, scale);
    let build = build(random, &order);
    let build = build_bytes(random, &build, 2);
    Case::Check { order: order_bytes(random, &order, 16), build }
}

/// An order, a build that is mostly sound, and a script, legal or not.
fn run(random: &mut Random, scale: &Scale) -> Case {
    let order = acceptable(random, scale);
    let build = build(random, &order);
    let build = build_bytes(random, &build, 32);
    let mut records = scripts::legal(random, &order, scale);
    if random.one_in(4) {
        scripts::misdraw(random, &mut records);
    }
    let mut bytes = script::bytes(&records);
    if random.one_in(4) {
        damage::damage(random, &mut bytes, &scripts::sections(&records));
    }
    Case::Run {
        order: order_bytes(random, &order, 64),
        build,
        room: room(random, bytes.len() / 6),
        script: bytes,
    }
}

/// A text to read, damaged or not.
fn read_text(random: &mut Random, scale: &Scale) -> Case {
    let order = orders::order(random, scale);
    let (processors, text) = texts::draw(random, &order);
    Case::ReadText { processors, text, room: room(random, order.bytes().len()) }
}

/// An order to write as text, out of range or not, damaged or not.
fn write_text(random: &mut Random, scale: &Scale) -> Case {
    let mut order = orders::order(random, scale);
    let needed = text::write(&order).len();
    if random.one_in(4) {
        orders::misdraw(random, &mut order);
    }
    Case::WriteText { order: order_bytes(random, &order, 2), room: room(random, needed) }
}

/// A set to write, and room around what its list takes.
fn write_list(random: &mut Random) -> Case {
    let set = lists::set(random);
    Case::WriteList { set, room: room(random, list::write(set).len()) }
}

/// An order and a build, each misdrawn or damaged or not, and places around what its partitions take.
fn partition_sets(random: &mut Random, scale: &Scale) -> Case {
    let mut order =
        if random.one_in(2) { orders::order(random, scale) } else { acceptable(random, scale) };
    let mut build = build(random, &order);
    let needed = build.partitions.len();
    match random.below(24) {
        0 | 1 => orders::miscount(random, &mut order),
        2..=5 => orders::misdraw(random, &mut order),
        6..=10 => builds::misdraw(random, &mut build),
        _ => {}
    }
    Case::PartitionSets {
        order: order_bytes(random, &order, 5),
        build: build_bytes(random, &build, 2),
        room: room(random, needed),
    }
}

/// An order and a build that is mostly late, each misdrawn or damaged or not, and room around what its script takes.
fn late(random: &mut Random, scale: &Scale) -> Case {
    let (mut order, mut build) = match random.below(6) {
        0 => {
            let order = orders::order(random, scale);
            let build = build(random, &order);
            (order, build)
        }
        _ => late::order_and_build(random, scale),
    };
    let needed = script_room(random, &order, &build);
    match random.below(24) {
        0 | 1 => orders::miscount(random, &mut order),
        2..=4 => orders::misdraw(random, &mut order),
        5..=6 => builds::misdraw(random, &mut build),
        _ => {}
    }
    Case::Late {
        order: order_bytes(random, &order, 5),
        build: build_bytes(random, &build, 6),
        room: room(random, needed),
    }
}

/// What the script of a late build takes, a little more than the most at most; any such length for other builds.
fn script_room(random: &mut Random, order: &Order, build: &Build) -> usize {
    let most = Record::MOST + 6;
    let records = match Late::new(&order.bytes(), &build.bytes()) {
        Ok(late) if late.script.len() <= Record::MOST || random.one_in(2) => late.script.len(),
        _ => random.spread(0, most as u32) as usize,
    };
    Record::LAYOUT.bytes() * records.min(most)
}
