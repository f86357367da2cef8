//! The test of one member, over its row and those of the higher members before it.

use super::asked::{line_below, met, Row, WHOLE};
use crate::response::HORIZON;

/// The worst response, if the member passes; and a tick before which its window does not close.
pub struct Tested {
    pub worst: Option<u32>,
    pub last: u32,
}

/// More is asked in every tick than the tick itself: no window closes.
pub fn overfull(rows: &[Row], blocking: u32, terms: &mut u64) -> bool {
    let (_, taken) = line_below(rows, 0, HORIZON, terms);
    WHOLE < taken + u64::from(blocking.min(1))
}

/// Job by job: its start in time, and whether the window closes before the next release.
fn jobs(rows: &[Row], rank: usize, blocking: u32, from: u32, terms: &mut u64) -> Tested {
    let (higher, Row { period, cost, deadline, .. }) = (&rows[..rank], rows[rank]);
    let (mut base, mut release, mut begin, mut worst) = (blocking, 0, from, 0);
    while release < HORIZON {
        let due = release + deadline - cost;
        let search = met(higher, u64::from(base) + 1, begin, due, terms);
        let Some(start) = search.found else {
            return Tested { worst: None, last: due + 1 };
        };
        let end = start + cost;
        worst = worst.max(end - release);
        base += cost;
        release += period;
        begin = release.min(HORIZON);
        if let Some(last) = closing(higher, base, end, search.next, begin, terms) {
            return Tested { worst: Some(worst), last };
        }
    }
    Tested { worst: None, last: HORIZON }
}

/// Where a window closes after a job that ends so: there, if no release comes before.
fn closing(
    rows: &[Row],
    base: u32,
    end: u32,
    next: u32,
    limit: u32,
    terms: &mut u64,
) -> Option<u32> {
    match next < end {
        true => met(rows, base.into(), end - 1, limit - 1, terms).found,
        false => (end <= limit).then_some(end - 1),
    }
}

/// The member of this rank, which does not start before from.
pub fn test(rows: &[Row], rank: usize, blocking: u32, from: u32, terms: &mut u64) -> Tested {
    if overfull(&rows[..=rank], blocking, terms) {
        return Tested { worst: None, last: HORIZON };
    }
    jobs(rows, rank, blocking, from, terms)
}

/// Whether its window, which does not close before from, closes at all.
pub fn has_window(rows: &[Row], rank: usize, blocking: u32, from: u32, terms: &mut u64) -> bool {
    met(&rows[..=rank], blocking.into(), from, HORIZON - 1, terms).found.is_some()
}
