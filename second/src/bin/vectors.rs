//! Writes vectors: a few of each number of each operation, out of the random cases of a seed, and the texts, lists and
//! late builds that were typed.

use second::generate::{cases, Scale};
use second::{options::Options, program::Second, vectors::Choice};
use std::io::{self, Write};

fn main() -> io::Result<()> {
    let options = Options::from_arguments();
    let operations = options.operations();
    let mut out = io::stdout().lock();
    for (group, cases) in cases::shares(&operations, options.cases) {
        let mut choice = Choice::new(&group, options.each);
        for index in 0..cases {
            let case = cases::nth(options.seed, index, &group, &Scale::FULL);
            let outcome = case.outcome(&Second);
            if choice.takes(&case, outcome.answer.number) {
                out.write_all(&options.form.of(&case, &outcome))?;
                if choice.is_complete() {
                    break;
                }
            }
        }
    }
    for case in cases::typed().filter(|case| operations.contains(&case.operation())) {
        out.write_all(&options.form.of(&case, &case.outcome(&Second)))?;
    }
    Ok(())
}
