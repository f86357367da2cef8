//! A planner written for speed, from the definition: plan, check, run and partitions' sets with all refusals.
//!
//! It is the third side of the benchmarks: flat arrays, one pass over the bytes, nothing read or sorted twice, the
//! waiting members of a partition as one word. What it leaves out is said in docs/BENCHMARKS.md: it keeps no start of a
//! trial for the next one.

mod check;
mod members;
mod order;
mod plan;
mod run;
mod sets;

pub use check::check;
pub use plan::plan;
pub use run::run;
pub use sets::partition_sets;

use crate::answer::Answer;
use crate::order::Order;
use crate::program::Program;

/// The most tasks, and the most partitions that can have one.
const MOST: usize = 32;

/// The program written for speed; orders, texts and lists are read and written, and late jobs shown, by the second
/// program.
pub struct Speed;

impl Program for Speed {
    fn read_order(&self, order: &[u8], numbers: &mut [u32; Order::NUMBERS]) -> Answer {
        crate::read_order(order, numbers)
    }

    fn write_order(&self, processors: u32, [m, t, d, c]: [&[u32]; 4], out: &mut [u8]) -> Answer {
        crate::write_order(processors, m, t, d, c, out)
    }

    fn plan(&self, order: &[u8], out: &mut [u8]) -> Answer {
        plan(order, out)
    }

    fn check(&self, order: &[u8], build: &[u8]) -> Answer {
        check(order, build)
    }

    fn run(&self, order: &[u8], build: &[u8], script: &[u8], out: &mut [u32]) -> Answer {
        run(order, build, script, out)
    }

    fn read_text(&self, processors: u32, text: &[u8], out: &mut [u8]) -> Answer {
        crate::read_text(processors, text, out)
    }

    fn write_text(&self, order: &[u8], out: &mut [u8]) -> Answer {
        crate::write_text(order, out)
    }

    fn write_list(&self, set: u64, out: &mut [u8]) -> Answer {
        crate::write_list(set, out)
    }

    fn read_list(&self, text: &[u8], set: &mut u64) -> Answer {
        crate::read_list(text, set)
    }

    fn partition_sets(&self, order: &[u8], build: &[u8], out: &mut [u64]) -> Answer {
        partition_sets(order, build, out)
    }

    fn late(&self, order: &[u8], build: &[u8], out: &mut [u8]) -> Answer {
        crate::late(order, build, out)
    }
}
