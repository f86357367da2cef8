//! How often each number was answered.

use crate::case::Operation;
use std::collections::BTreeMap;
use std::fmt;

/// Counts by number and operation, of some operations.
pub struct Tally {
    operations: Vec<Operation>,
    counts: BTreeMap<(u16, Operation), u32>,
}

impl Tally {
    pub fn new(operations: &[Operation]) -> Tally {
        Tally { operations: operations.to_vec(), counts: BTreeMap::new() }
    }

    pub fn add(&mut self, number: u16, operation: Operation) {
        *self.counts.entry((number, operation)).or_default() += 1;
    }

    pub fn of(&self, number: u16, operation: Operation) -> u32 {
        self.counts.get(&(number, operation)).copied().unwrap_or(0)
    }

    /// How many cases were counted.
    pub fn cases(&self) -> u32 {
        self.counts.values().sum()
    }

    /// The numbers that some operations can answer by the definition, and how often they did.
    fn totals<'a>(&'a self, of: &'a [Operation]) -> impl Iterator<Item = (u16, u32)> + 'a {
        let can = |number: &u16| of.iter().any(|operation| operation.can_answer(*number));
        let total = |number| of.iter().map(|&operation| self.of(number, operation)).sum();
        (0..=Operation::MOST).filter(can).map(move |number| (number, total(number)))
    }

    /// The rarest number and how often its group of operations answered it; no input brings about 28.
    pub fn rarest(&self) -> (u16, u32) {
        let groups = Operation::groups(&self.operations);
        let totals = groups.iter().flat_map(|group| self.totals(group));
        let but_28 = totals.filter(|&(number, _)| number != 28);
        but_28.min_by_key(|&(_, total)| total).unwrap_or((0, 0))
    }
}

impl fmt::Display for Tally {
    fn fmt(&self, f: &mut fmt::Formatter) -> fmt::Result {
        write!(f, "number")?;
        for operation in &self.operations {
            write!(f, "{:>15}", operation.name())?;
        }
        writeln!(f, "{:>15}", "all")?;
        for (number, total) in self.totals(&self.operations) {
            write!(f, "{number:>6}")?;
            for &operation in &self.operations {
                write!(f, "{:>15}", self.of(number, operation))?;
            }
            writeln!(f, "{total:>15}")?;
        }
        let (number, total) = self.rarest();
        writeln!(f, "rarest, 28 aside: {number}, {total} times")
    }
}
