//! The operations as one thing that can be compared with another.

use crate::answer::Answer;
use crate::order::Order;

/// A program under comparison.
pub trait Program {
    fn read_order(&self, order: &[u8], numbers: &mut [u32; Order::NUMBERS]) -> Answer;
    fn write_order(&self, processors: u32, columns: [&[u32]; 4], out: &mut [u8]) -> Answer;
    fn plan(&self, order: &[u8], out: &mut [u8]) -> Answer;
    fn check(&self, order: &[u8], build: &[u8]) -> Answer;
    fn run(&self, order: &[u8], build: &[u8], script: &[u8], out: &mut [u32]) -> Answer;
    fn read_text(&self, processors: u32, text: &[u8], out: &mut [u8]) -> Answer;
    fn write_text(&self, order: &[u8], out: &mut [u8]) -> Answer;
    fn write_list(&self, set: u64, out: &mut [u8]) -> Answer;
    fn read_list(&self, text: &[u8], set: &mut u64) -> Answer;
    fn partition_sets(&self, order: &[u8], build: &[u8], out: &mut [u64]) -> Answer;
    fn late(&self, order: &[u8], build: &[u8], out: &mut [u8]) -> Answer;
}

/// This one.
pub struct Second;

impl Program for Second {
    fn read_order(&self, order: &[u8], numbers: &mut [u32; Order::NUMBERS]) -> Answer {
        crate::read_order(order, numbers)
    }

    fn write_order(&self, processors: u32, [m, t, d, c]: [&[u32]; 4], out: &mut [u8]) -> Answer {
        crate::write_order(processors, m, t, d, c, out)
    }

    fn plan(&self, order: &[u8], out: &mut [u8]) -> Answer {
        crate::plan(order, out)
    }

    fn check(&self, order: &[u8], build: &[u8]) -> Answer {
        crate::check(order, build)
    }

    fn run(&self, order: &[u8], build: &[u8], script: &[u8], out: &mut [u32]) -> Answer {
        crate::run(order, build, script, out)
    }

    fn read_text(&self, processors: u32, text: &[u8], out: &mut [u8]) -> Answer {
        crate::read_text(processors, text, out)
    }

    fn write_text(&self, order: &[u8], out: &mut [u8]) -> Answer {
        crate::write_text(order, out)
    }

    fn write_list(&self, set: u64, out: &mut [u8]) -> Answer {
        crate::write_list(set, out)
    }

    fn read_list(&self, text: &[u8], set: &mut u64) -> Answer {
        crate::read_list(text, set)
    }

    fn partition_sets(&self, order: &[u8], build: &[u8], out: &mut [u64]) -> Answer {
        crate::partition_sets(order, build, out)
    }

    fn late(&self, order: &[u8], build: &[u8], out: &mut [u8]) -> Answer {
        crate::late(order, build, out)
    }
}
