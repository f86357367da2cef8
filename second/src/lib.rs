//! The second program: the operations of the definition, written from its text alone.
//!
//! Every operation answers a number, a place and a count.
//! A refusal leaves the output as it was; a success changes only the counted front.

pub mod answer;
pub mod bench;
pub mod bits;
pub mod build;
pub mod case;
pub mod check;
pub mod counted;
pub mod fit;
pub mod generate;
pub mod late;
pub mod library;
pub mod list;
pub mod machine;
pub mod options;
pub mod order;
pub mod program;
pub mod response;
pub mod script;
pub mod set;
pub mod speed;
pub mod tally;
pub mod text;
pub mod vectors;

use answer::{Answer, Cause, Refusal};
use build::Partition;
use order::Order;

/// Reads an order into M, n and 32 times (m, T, D, C), zero past its n tasks.
pub fn read_order(order: &[u8], numbers: &mut [u32; Order::NUMBERS]) -> Answer {
    let reading = Order::read(order);
    Answer::from(reading.map(|order| {
        *numbers = order.numbers();
        0
    }))
}

/// Writes the order on `processors` whose tasks are the rows of the four columns.
pub fn write_order(
    processors: u32,
    m: &[u32],
    t: &[u32],
    d: &[u32],
    c: &[u32],
    out: &mut [u8],
) -> Answer {
    let order = Order::from_columns(processors, [m, t, d, c]);
    Answer::from(order.and_then(|order| put(&order.bytes(), out, Cause::Output)))
}

/// Makes the build of an order by first fit.
pub fn plan(order: &[u8], out: &mut [u8]) -> Answer {
    let build = Order::read(order).and_then(|order| fit::first_fit(&order));
    Answer::from(build.and_then(|build| put(&build.bytes(), out, Cause::Output)))
}

/// Holds a build against an order.
pub fn check(order: &[u8], build: &[u8]) -> Answer {
    Answer::from(check::check(order, build).map(|_| 0))
}

/// Runs a script through a build; writes one finish tick per record.
pub fn run(order: &[u8], build: &[u8], script: &[u8], out: &mut [u32]) -> Answer {
    Answer::from(try_run(order, build, script, out))
}

fn try_run(order: &[u8], build: &[u8], script: &[u8], out: &mut [u32]) -> Result<usize, Refusal> {
    let (order, build) = check::check(order, build)?;
    let records = script::read(script, &order, out.len())?;
    put(&machine::finish_ticks(&build, &records), out, Cause::Places)
}

/// Reads the order form's text, with M beside it, into an order.
pub fn read_text(processors: u32, text: &[u8], out: &mut [u8]) -> Answer {
    let order = text::read(processors, text);
    Answer::from(order.and_then(|order| put(&order.bytes(), out, Cause::Output)))
}

/// Writes the text of an order.
pub fn write_text(order: &[u8], out: &mut [u8]) -> Answer {
    let text = Order::read(order).map(|order| text::write(&order));
    Answer::from(text.and_then(|text| put(&text, out, Cause::Output)))
}

/// Writes the list of a set.
pub fn write_list(set: u64, out: &mut [u8]) -> Answer {
    Answer::from(put(&list::write(set), out, Cause::Output))
}

/// Reads a list as its set, which is written only where it is accepted.
pub fn read_list(text: &[u8], set: &mut u64) -> Answer {
    let reading = list::read(text);
    Answer::from(reading.map(|read| {
        *set = read;
        0
    }))
}

/// The set of each partition of an accepted build.
pub fn partition_sets(order: &[u8], build: &[u8], out: &mut [u64]) -> Answer {
    let sets = check::check(order, build)
        .map(|(_, build)| build.partitions.iter().map(Partition::set).collect::<Vec<u64>>());
    Answer::from(sets.and_then(|sets| put(&sets, out, Cause::Output)))
}

/// A script that shows the late job of a build that is refused 29.
pub fn late(order: &[u8], build: &[u8], out: &mut [u8]) -> Answer {
    let script = late::script(order, build);
    Answer::from(script.and_then(|script| put(&script::bytes(&script), out, Cause::Output)))
}

/// Replaces the front of the output; refused where the output is too short for it.
fn put<T: Copy>(front: &[T], out: &mut [T], short: Cause) -> Result<usize, Refusal> {
    let room = out.get_mut(..front.len()).ok_or(short.nowhere())?;
    room.copy_from_slice(front);
    Ok(front.len())
}
