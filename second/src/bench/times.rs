//! How long the sides take.

use super::given::Given;
use super::{Operation, Side};
use std::hint::black_box;
use std::time::{Duration, Instant};

/// Each measurement goes on for at least so long.
const LEAST: Duration = Duration::from_millis(3);

/// How long a side takes for all that is given, so many times, each time.
fn time(operation: Operation, side: &Side, given: &[&Given], times: u32) -> Duration {
    let start = Instant::now();
    for _ in 0..times {
        for given in given {
            black_box(operation.answer(side.program, black_box(given)));
        }
    }
    start.elapsed() / times
}

/// The sides must answer alike.
pub fn alike(operation: Operation, sides: &[&Side], given: &[&Given]) {
    for given in given {
        let mut answers = sides.iter().map(|side| operation.answer(side.program, given));
        let first = answers.next();
        assert!(answers.all(|answer| Some(answer) == first), "the sides differ");
    }
}

/// The best time of each call, an operation of a side, for one of the given, in seconds, over so many runs, the calls in
/// turn.
pub fn best(calls: &[(Operation, &Side)], given: &[&Given], runs: u32) -> Vec<f64> {
    let enough = |&(operation, side): &(Operation, &Side)| {
        let once = time(operation, side, given, 1).max(Duration::from_nanos(100));
        (LEAST.as_nanos() / once.as_nanos()).clamp(1, 100_000) as u32
    };
    let times: Vec<u32> = calls.iter().map(enough).collect();
    let mut best = vec![Duration::MAX; calls.len()];
    for _ in 0..runs {
        for ((&(operation, side), &times), best) in calls.iter().zip(&times).zip(&mut best) {
            *best = time(operation, side, given, times).min(*best);
        }
    }
    best.iter().map(|all| all.as_secs_f64() / given.len() as f64).collect()
}
