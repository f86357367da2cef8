//! Benchmarks: the sides, what they are given, and how long they take.

pub mod given;
pub mod table;
pub mod times;

use crate::answer::Answer;
use crate::library::Library;
use crate::program::{Program, Second};
use crate::speed::Speed;
use crate::{list, order::Order, text};
use given::Given;

/// A program that is timed.
pub struct Side {
    pub name: &'static str,
    pub program: &'static dyn Program,
}

/// The proved library through its C functions, the second program, and the program written for speed.
pub const SIDES: [Side; 3] = [
    Side { name: "Library", program: &Library },
    Side { name: "Second", program: &Second },
    Side { name: "For speed", program: &Speed },
];

/// What is timed, and how many times as long as the fastest other side the library may take.
#[derive(Clone, Copy, Debug, PartialEq, Eq)]
pub enum Operation {
    Plan,
    Check,
    /// The check of the build that has all tasks in one partition.
    CheckInOne,
    Run,
    ReadText,
    WriteText,
    WriteList,
    ReadList,
    PartitionSets,
    /// The late job of that build.
    Late,
}

impl Operation {
    pub fn name(self) -> &'static str {
        match self {
            Operation::Plan => "plan",
            Operation::Check => "check",
            Operation::CheckInOne => "check, all in one",
            Operation::Run => "run",
            Operation::ReadText => "read_text",
            Operation::WriteText => "write_text",
            Operation::WriteList => "write_list",
            Operation::ReadList => "read_list",
            Operation::PartitionSets => "partition_sets",
            Operation::Late => "late, all in one",
        }
    }

    pub fn limit(self) -> f64 {
        match self {
            Operation::Run => 4.0,
            _ => 2.0,
        }
    }

    /// Whether it asks what is asked by some t, so that terms are counted.
    pub fn has_terms(self) -> bool {
        use Operation::{Check, CheckInOne, Late, PartitionSets, Plan, Run};
        matches!(self, Plan | Check | CheckInOne | Run | PartitionSets | Late)
    }

    /// The answer of a program, over cleared outputs.
    pub fn answer(self, program: &dyn Program, given: &Given) -> Answer {
        let Given { order, build, in_one, script, processors, text, set, list } = given;
        match self {
            Operation::Plan => program.plan(order, &mut [0; 195]),
            Operation::Check => program.check(order, build),
            Operation::CheckInOne => program.check(order, in_one),
            Operation::Run => program.run(order, build, script, &mut [0; 1_024]),
            Operation::ReadText => program.read_text(*processors, text, &mut [0; Order::MOST]),
            Operation::WriteText => program.write_text(order, &mut [0; text::MOST]),
            Operation::WriteList => program.write_list(*set, &mut [0; list::MOST]),
            Operation::ReadList => program.read_list(list, &mut 0),
            Operation::PartitionSets => program.partition_sets(order, build, &mut [0; 32]),
            Operation::Late => program.late(order, in_one, &mut [0; 6_144]),
        }
    }
}
