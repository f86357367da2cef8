//! Rows of figures, and whether they keep within the limits.

use super::given::Given;
use super::times::{alike, best};
use super::{Operation, Side, SIDES};

/// The tables as they are printed.
pub struct Tables {
    /// Each figure is the best of so many.
    pub runs: u32,
    /// The largest ratio of each that has a limit.
    pub largest: Vec<Largest>,
}

/// What a limit is about, the limit, the largest ratio, and the row that has it.
pub struct Largest {
    what: &'static str,
    limit: f64,
    ratio: f64,
    row: String,
}

impl Tables {
    /// Prints a heading and the head of a table over all sides.
    pub fn head(&self, title: &str, first: &str) {
        let sides: String = SIDES.iter().map(|side| format!(" {}, µs |", side.name)).collect();
        println!("\n## {title}\n");
        println!("| {first} | Operation | Cases | Records | Terms |{sides} Ratio |");
        println!("|---|---|---|---|---|{}---|", "---|".repeat(SIDES.len()));
    }

    /// One row: the means of the sides in microseconds, and the library's ratio to the fastest other side.
    pub fn row(&mut self, name: &str, operation: Operation, sides: &[usize], given: &[&Given]) {
        if given.is_empty() {
            return;
        }
        let timed: Vec<&Side> = sides.iter().map(|&side| &SIDES[side]).collect();
        alike(operation, &timed, given);
        let calls: Vec<(Operation, &Side)> = timed.iter().map(|&side| (operation, side)).collect();
        let seconds = best(&calls, given, self.runs);
        let fastest = seconds[1..].iter().copied().fold(f64::INFINITY, f64::min);
        let ratio = seconds[0] / fastest;
        let cell = |side: usize| match sides.iter().position(|&timed| timed == side) {
            Some(place) => format!(" {:.2} |", seconds[place] * 1e6),
            None => " |".into(),
        };
        let cells: String = (0..SIDES.len()).map(cell).collect();
        let records = match operation {
            Operation::Run => mean(given, |given| given.records() as u64).to_string(),
            _ => String::new(),
        };
        let terms = match operation.has_terms() {
            true => mean(given, |given| given.terms(operation)).to_string(),
            false => String::new(),
        };
        let (what, cases) = (operation.name(), given.len());
        println!("| {name} | {what} | {cases} | {records} | {terms} |{cells} {ratio:.2} |");
        self.note(operation.name(), operation.limit(), ratio, name);
    }

    /// Prints a heading and the head of a table of the library's late job beside its check.
    pub fn head_beside(&self, title: &str, first: &str) {
        println!("\n## {title}\n");
        println!("| {first} | Answer | Cases | Records | Terms, check | Terms, late | Check, µs | Late, µs | Ratio |");
        println!("|---|---|---|---|---|---|---|---|---|");
    }

    /// One row: the means of the library's check and of its late job, for builds that are answered alike, and how many
    /// times as long as the check, which is in it, the late job takes.
    pub fn row_beside(&mut self, name: &str, given: &[&Given], limit: Option<f64>) {
        let [check, late] = [Operation::CheckInOne, Operation::Late];
        let seconds = best(&[(check, &SIDES[0]), (late, &SIDES[0])], given, self.runs);
        let ratio = seconds[1] / seconds[0];
        let [checked, shown] = seconds[..] else { return };
        let (checked, shown) = (checked * 1e6, shown * 1e6);
        let number = late.answer(SIDES[0].program, given[0]).number;
        let (cases, records) = (given.len(), mean(given, |given| given.late_records() as u64));
        let terms = [check, late].map(|operation| mean(given, |given| given.terms(operation)));
        let [terms_of_check, terms_of_late] = terms;
        println!("| {name} | {number} | {cases} | {records} | {terms_of_check} | {terms_of_late} | {checked:.2} | {shown:.2} | {ratio:.2} |");
        if let Some(limit) = limit {
            self.note("late beside check, slow orders", limit, ratio, name);
        }
    }

    fn note(&mut self, what: &'static str, limit: f64, ratio: f64, row: &str) {
        let new = Largest { what, limit, ratio, row: row.into() };
        match self.largest.iter_mut().find(|largest| largest.what == what) {
            Some(largest) if ratio <= largest.ratio => {}
            Some(largest) => *largest = new,
            None => self.largest.push(new),
        }
    }

    /// Prints the largest ratios; whether all are within the limits.
    pub fn close(&self) -> bool {
        println!(
            "\n## Largest ratios\n\n| Operation | Ratio | Limit | Orders |\n|---|---|---|---|"
        );
        for Largest { what, limit, ratio, row } in &self.largest {
            println!("| {what} | {ratio:.2} | {limit} | {row} |");
        }
        self.largest.iter().all(|largest| largest.ratio <= largest.limit)
    }
}

fn mean(given: &[&Given], of: impl Fn(&Given) -> u64) -> u64 {
    given.iter().map(|given| of(given)).sum::<u64>() / given.len() as u64
}
