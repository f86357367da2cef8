//! Prints how often the cases of a seed bring about each number.

use second::generate::cases;
use second::{options::Options, program::Second, tally::Tally};

fn main() {
    let options = Options::from_arguments();
    let operations = options.operations();
    let mut tally = Tally::new(&operations);
    for case in cases::drawn(options.seed, options.cases, &operations) {
        tally.add(case.outcome(&Second).answer.number, case.operation());
    }
    print!("{tally}");
}
