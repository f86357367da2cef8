//! The program written for speed agrees with the second and the naive program, accepted and refused.

mod naive;

use naive::Naive;
use second::case::Operation;
use second::generate::{cases, Scale};
use second::program::{Program, Second};
use second::speed::Speed;
use second::tally::Tally;

/// What it does itself, and what it adds to its check.
const OWN: [Operation; 3] = [Operation::Plan, Operation::Check, Operation::Run];
const SETS: [Operation; 1] = [Operation::PartitionSets];

/// Both programs answer alike on so many cases, each number at least so often.
fn agree(
    on: &[Operation],
    with: &impl Program,
    (seed, cases): (u64, u64),
    scale: Scale,
    least: u32,
) {
    let mut tally = Tally::new(on);
    for index in 0..cases {
        let case = cases::nth(seed, index, on, &scale);
        let (fast, other) = (case.outcome(&Speed), case.outcome(with));
        let told = || format!("{index}\n{}\n{}", case.line(&fast), case.line(&other));
        assert!(fast == other, "{}", told());
        tally.add(fast.answer.number, case.operation());
    }
    assert!(tally.rarest().1 >= least, "{tally}");
}

#[test]
fn with_the_second() {
    agree(&OWN, &Second, (21, 30_000), Scale::FULL, 15);
    agree(&SETS, &Second, (24, 4_000), Scale::FULL, 15);
}

#[test]
fn with_the_naive() {
    agree(&OWN, &Naive, (22, 8_000), Scale::SMALL, 0);
    agree(&SETS, &Naive, (25, 2_000), Scale::SMALL, 0);
}

/// Few tasks, but all periods: windows and starts up to the horizon.
#[test]
fn with_the_naive_to_the_horizon() {
    let scale = Scale { tasks: 3, period: 1_000_000, records: 4 };
    agree(&OWN, &Naive, (23, 300), scale, 0);
}
