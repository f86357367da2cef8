//! What the members of a partition ask by a tick, and the search for the first tick at which it is met.

use crate::order::Task;

/// The parts of a whole processor: every number up to 19 divides them.
pub const WHOLE: u64 = 3_491_888_400;

/// Later than every release that is looked at.
const FAR: u32 = 4_000_000;

/// One member's row.
#[derive(Clone, Copy)]
pub struct Row {
    pub period: u32,
    pub cost: u32,
    pub deadline: u32,
    share: u64,
}

impl From<&Task> for Row {
    fn from(&Task { t, d, c, .. }: &Task) -> Row {
        let share = u64::from(c) * WHOLE / u64::from(t);
        Row { period: t, cost: c, deadline: d, share }
    }
}

/// What was found, and a tick before which nothing more is released.
pub struct Searched {
    pub found: Option<u32>,
    pub next: u32,
}

/// When the line is asked for: after how many more steps, after how many it was last, and which periods then go by
/// their share.
struct Pace {
    reach: u32,
    wait: u32,
    waited: u32,
}

/// All that is asked, and the first release to come.
struct Step {
    all: u64,
    next: u32,
}

/// What is asked by w, with each member's next release.
fn begin(rows: &[Row], w: u32, due: &mut [u32; 32], terms: &mut u64) -> Step {
    *terms += rows.len() as u64;
    let mut step = Step { all: 0, next: FAR };
    for (row, due) in rows.iter().zip(due) {
        let releases = w / row.period + 1;
        *due = releases * row.period;
        step.all += u64::from(releases) * u64::from(row.cost);
        step.next = step.next.min(*due);
    }
    step
}

/// One release more of each member whose next one has come by w.
fn advance(rows: &[Row], w: u32, due: &mut [u32; 32], terms: &mut u64) -> Step {
    *terms += rows.len() as u64;
    let mut step = Step { all: 0, next: FAR };
    for (row, due) in rows.iter().zip(due) {
        let more = u32::from(*due <= w);
        *due += more * row.period;
        step.all += u64::from(more * row.cost);
        step.next = step.next.min(*due);
    }
    step
}

/// From an earlier tick on to w: by one release of each at most, else anew.
fn go_on(rows: &[Row], all: u64, w: u32, due: &mut [u32; 32], terms: &mut u64) -> Step {
    let step = advance(rows, w, due, terms);
    match w < step.next {
        true => Step { all: all + step.all, next: step.next },
        false => begin(rows, w, due, terms),
    }
}

/// What rests from w on, and the share of each tick that is added.
pub fn line_below(rows: &[Row], w: u32, reach: u32, terms: &mut u64) -> (u64, u64) {
    *terms += rows.len() as u64;
    let (mut rest, mut slope) = (0, 0);
    for row in rows {
        match row.period <= reach {
            true => slope += row.share,
            false => rest += u64::from(w / row.period + 1) * u64::from(row.cost),
        }
    }
    (rest, slope)
}

/// The tick before which a line stays above.
fn line_end(rest: u64, slope: u64) -> u64 {
    match slope < WHOLE && rest <= 2_000_000_000 {
        true => rest * WHOLE / (WHOLE - slope),
        false => rest,
    }
}

impl Pace {
    /// Where the search goes on, and when it next asks for the line: at once again where it helped, else after twice as
    /// many steps.
    fn go_ahead(
        &self,
        rows: &[Row],
        base: u64,
        w: u32,
        on: u64,
        terms: &mut u64,
    ) -> (u64, u32, u32) {
        if self.wait > 0 {
            return (on, self.wait - 1, self.waited);
        }
        let (rest, slope) = line_below(rows, w, self.reach, terms);
        let end = line_end(base + rest, slope);
        if on < end {
            return (on.max(end - 1), 0, 0);
        }
        let waits = (2 * self.waited + 1).min(15);
        (on, waits, waits)
    }
}

/// The smallest w up to the limit with base + what is asked by w ≤ w + 1, of which none is below from.
pub fn met(rows: &[Row], base: u64, from: u32, limit: u32, terms: &mut u64) -> Searched {
    let mut due = [0; 32];
    let mut step = begin(rows, from, &mut due, terms);
    let mut w = from;
    let mut pace = Pace { reach: 2, wait: 1, waited: 1 };
    let unless_past = |w: u64, next| {
        let found = (w <= u64::from(limit)).then_some(w as u32);
        Searched { found, next }
    };
    while w <= limit {
        let on = (base + step.all).max(u64::from(w) + 1) - 1;
        if on < u64::from(step.next) {
            return unless_past(on, step.next);
        }
        let (to, wait, waited) = pace.go_ahead(rows, base, w, on, terms);
        if u64::from(limit) < to {
            return unless_past(to, step.next);
        }
        let to = to as u32;
        step = go_on(rows, step.all, to, &mut due, terms);
        pace = Pace { reach: 4 * (to - w), wait, waited };
        w = to;
    }
    unless_past(w.into(), step.next)
}
