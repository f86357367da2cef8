//! The program and the definition taken literally agree on random cases.

mod naive;

use naive::Naive;
use second::case::Operation;
use second::generate::{cases, Scale};
use second::program::Second;

fn agree(operation: Operation, cases: u64, scale: Scale) {
    for index in 0..cases {
        let case = cases::nth(7, index, &[operation], &scale);
        let (fast, literal) = (case.outcome(&Second), case.outcome(&Naive));
        let told = || format!("{index}\n{}\n{}", case.line(&fast), case.line(&literal));
        assert!(fast == literal, "{}", told());
    }
}

/// Few tasks, but all periods: windows and starts up to the horizon.
const LONG: Scale = Scale { tasks: 3, period: 1_000_000, records: 4 };

#[test]
fn read() {
    agree(Operation::Read, 10_000, Scale::FULL);
}

#[test]
fn write() {
    agree(Operation::Write, 10_000, Scale::FULL);
}

#[test]
fn plan() {
    agree(Operation::Plan, 4_000, Scale::SMALL);
}

#[test]
fn check() {
    agree(Operation::Check, 4_000, Scale::SMALL);
}

#[test]
fn run() {
    agree(Operation::Run, 4_000, Scale::SMALL);
}

#[test]
fn read_text() {
    agree(Operation::ReadText, 20_000, Scale::FULL);
}

#[test]
fn write_text() {
    agree(Operation::WriteText, 10_000, Scale::FULL);
}

#[test]
fn write_list() {
    agree(Operation::WriteList, 10_000, Scale::FULL);
}

#[test]
fn read_list() {
    agree(Operation::ReadList, 6_000, Scale::FULL);
}

#[test]
fn partition_sets() {
    agree(Operation::PartitionSets, 4_000, Scale::SMALL);
}

#[test]
fn late() {
    agree(Operation::Late, 6_000, Scale::SMALL);
}

#[test]
fn long_periods() {
    agree(Operation::Plan, 150, LONG);
    agree(Operation::Check, 150, LONG);
    agree(Operation::Run, 40, LONG);
    agree(Operation::Late, 40, LONG);
}
