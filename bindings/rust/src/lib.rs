//! The planner of camera boxes for Rust: the eleven operations of the proved library libjefkantu.a.
//!
//! ```
//! use jefkantu::{plan, run, write_order, write_script, Build, Order, Release};
//!
//! let order = write_order(&Order::of(2, [[2, 10, 10, 4], [1, 14, 13, 4]])?)?;
//! let build = plan(&order)?;
//! let responses: Vec<u32> = Build::read(&order, &build)?.tasks.iter().map(|it| it.response).collect();
//! assert_eq!(responses, [7, 8]);
//!
//! let script = write_script(&[Release::of(0, 1, 4)?, Release::of(1, 0, 4)?])?;
//! assert_eq!(run(&order, &build, &script)?, [4, 8]);
//! # Ok::<(), Box<dyn std::error::Error>>(())
//! ```
//!
//! The text of an order form goes in as it was typed, and comes out with a point and two decimals:
//!
//! ```
//! use jefkantu::{read_text, write_text};
//!
//! let order = read_text(4, "2;7,5;7.5;0.04\n")?;
//! assert_eq!(write_text(&order)?, "2;7.50;7.50;0.04\n");
//!
//! let refused = read_text(4, "2;7,5;7.5;0.04\n2;7,5 ;7.5;0.04\n").unwrap_err();
//! assert!(refused.to_string().starts_with("refused 50 at line 1: not m;T;D;C"));
//! # Ok::<(), Box<dyn std::error::Error>>(())
//! ```
//!
//! A build that the check refuses 29 has a late task: the late script shows a job of it that finishes after its deadline.
//!
//! ```
//! use jefkantu::{check, late, read_script, write_order, Order, Release};
//!
//! let order = write_order(&Order::of(1, [[1, 10, 5, 3], [1, 100, 100, 4]])?)?;
//! let build = [0x10, 0x21, 0x01, 0x02, 0x00, 0x00, 0x00, 0x00, 0x0C, 0x00, 0x20, 0x00, 0x0E];
//! assert_eq!(check(&order, &build).unwrap_err().to_string(), "refused 29 at task 0: worst response over D");
//!
//! // Task 1 comes first and runs to tick 4, task 0 comes at tick 1 and runs to tick 7: its deadline is tick 6.
//! let script = late(&order, &build)?;
//! assert_eq!(read_script(&script), Some(vec![Release::of(0, 1, 4)?, Release::of(1, 0, 3)?]));
//! # Ok::<(), Box<dyn std::error::Error>>(())
//! ```
//!
//! Each partition has a set of processors, and a list of them to pin a process with, as `taskset --cpu-list` takes it:
//!
//! ```
//! use jefkantu::{partition_sets, plan, read_list, write_list, write_order, Order, Set};
//!
//! let order = write_order(&Order::of(4, [[2, 10, 10, 4], [1, 10, 10, 10]])?)?;
//! let lists: Vec<_> = partition_sets(&order, &plan(&order)?)?.into_iter().map(write_list).collect();
//! assert_eq!(lists, ["0-1", "2"]);
//!
//! assert_eq!(read_list("7,0-2,3")?, Set::of([0, 1, 2, 3, 7])?);
//! assert!(read_list("7,2-0").unwrap_err().to_string().starts_with("refused 62 at byte 4: a range that falls"));
//! # Ok::<(), Box<dyn std::error::Error>>(())
//! ```
//!
//! Numbers come in whole: `of` takes whole numbers of any width, signed or not, and refuses what 32 bits or the field do
//! not hold; `as u32` would cut it. The borrows keep what a call writes apart from what it reads.
#![deny(missing_docs, unsafe_code)]

mod build;
mod list;
mod number;
mod order;
mod refusal;
mod script;
#[allow(unsafe_code)]
mod surface;
mod text;

pub use build::{Build, Member, Partition};
pub use list::{read_list, write_list, write_list_into, Set};
pub use number::{column, NotHeld, Whole};
pub use order::{Columns, Order, Task};
pub use refusal::{Cause, Refusal};
pub use script::{read_script, write_script, Release};
pub use text::{read_text, read_text_into, write_text, write_text_into, NotRead};

use refusal::answer;

/// The README's Rust is compiled and run too.
#[cfg(doctest)]
#[doc = include_str!("../../../README.md")]
struct Readme;

/// Reads an order: 1 to 6 in turn, then task by task 7 to 10.
pub fn read_order(order: &[u8]) -> Result<Order, Refusal> {
    let mut numbers = [0; Order::NUMBERS];
    answer(surface::read_order(order, &mut numbers))?;
    Ok(Order::of_numbers(&numbers))
}

/// Writes an order: 3, 4, then task by task 7 to 10.
pub fn write_order(order: &Order) -> Result<Vec<u8>, Refusal> {
    filled(Order::MOST_BYTES, |out| write_order_into(order, out))
}

/// Writes an order into the front of the caller's buffer, and answers its length; 12 where it is too short.
pub fn write_order_into(order: &Order, out: &mut [u8]) -> Result<usize, Refusal> {
    let column = |field: fn(&Task) -> u32| order.tasks.iter().map(field).collect::<Vec<_>>();
    let columns = Columns {
        widths: &column(|task| task.width),
        periods: &column(|task| task.period),
        deadlines: &column(|task| task.deadline),
        runs: &column(|task| task.run),
    };
    write_columns_into(order.processors, &columns, out)
}

/// The writer itself, given M and four columns: 13, 3, 4, then task by task 7 to 10, then 12.
pub fn write_columns_into(
    processors: u32,
    columns: &Columns,
    out: &mut [u8],
) -> Result<usize, Refusal> {
    answer(surface::write_order(processors, columns, out))
}

/// Plans an order and gives its build: the order's 1 to 10, then 11.
pub fn plan(order: &[u8]) -> Result<Vec<u8>, Refusal> {
    filled(Build::MOST_BYTES, |out| plan_into(order, out))
}

/// Plans an order into the front of the caller's buffer, and answers the build's length: 1 to 10, 11, then 12.
pub fn plan_into(order: &[u8], out: &mut [u8]) -> Result<usize, Refusal> {
    answer(surface::plan(order, out))
}

/// Checks a build against an order: the order's 1 to 10, then 20 to 30.
pub fn check(order: &[u8], build: &[u8]) -> Result<(), Refusal> {
    answer(surface::check(order, build)).map(drop)
}

/// Runs a script through a build and gives each record's finish tick: the check, 40, then record by record 41 to 45.
pub fn run(order: &[u8], build: &[u8], script: &[u8]) -> Result<Vec<u32>, Refusal> {
    let records = Release::MOST_RECORDS.min(script.len() / Release::BYTES);
    filled(records, |out| run_into(order, build, script, out))
}

/// Runs a script, its finish ticks into the front of the caller's buffer, and answers their count; 46 after 40.
pub fn run_into(
    order: &[u8],
    build: &[u8],
    script: &[u8],
    out: &mut [u32],
) -> Result<usize, Refusal> {
    answer(surface::run(order, build, script, out))
}

/// Gives a script that shows the late job of a build that the check refuses 29: the order's 1 to 10, 63, then 64.
pub fn late(order: &[u8], build: &[u8]) -> Result<Vec<u8>, Refusal> {
    filled(Release::MOST_SCRIPT_BYTES, |out| late_into(order, build, out))
}

/// That script into the front of the caller's buffer, and its length: 1 to 10, 63, 64, then 12.
pub fn late_into(order: &[u8], build: &[u8], out: &mut [u8]) -> Result<usize, Refusal> {
    answer(surface::late(order, build, out))
}

/// Gives the set of each partition of a build: the check.
pub fn partition_sets(order: &[u8], build: &[u8]) -> Result<Vec<Set>, Refusal> {
    filled(Build::MOST_PARTITIONS, |out| partition_sets_into(order, build, out))
}

/// The sets of a build's partitions into the front of the caller's buffer, and their count: the check, then 12.
pub fn partition_sets_into(order: &[u8], build: &[u8], out: &mut [Set]) -> Result<usize, Refusal> {
    answer(surface::partition_sets(order, build, out))
}

/// What a call writes into the front of a buffer with enough room.
fn filled<T: Clone + Default, E>(
    room: usize,
    call: impl FnOnce(&mut [T]) -> Result<usize, E>,
) -> Result<Vec<T>, E> {
    let mut out = vec![T::default(); room];
    let count = call(&mut out)?;
    out.truncate(count);
    Ok(out)
}
