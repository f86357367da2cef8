//! Holds the static library against the second program, answer by answer and byte by byte.

use second::answer::Answer;
use second::case::{Case, Operation, Outcome};
use second::generate::cases;
use second::library::{
    jefkantu_check, jefkantu_late, jefkantu_partition_sets, jefkantu_plan, jefkantu_read_list,
    jefkantu_read_order, jefkantu_read_text, jefkantu_run, jefkantu_write_list,
    jefkantu_write_order, jefkantu_write_text,
};
use second::options::Options;
use second::order::Order;
use second::program::{Program, Second};
use second::tally::Tally;
use std::cell::Cell;
use std::process::exit;

/// The static library, given copies of the inputs, which are looked at afterwards.
#[derive(Default)]
struct Watched {
    /// Whether it ever changed an input.
    meddled: Cell<bool>,
}

impl Watched {
    /// Calls the library with copies of the inputs, each as a pointer and a length.
    fn lend<T: Copy + PartialEq, const K: usize>(
        &self,
        inputs: [&[T]; K],
        call: impl FnOnce([(*const T, usize); K]) -> u64,
    ) -> Answer {
        let mut copies = inputs.map(<[T]>::to_vec);
        let lent = copies.each_mut().map(|copy| (copy.as_mut_ptr().cast_const(), copy.len()));
        let word = call(lent);
        let kept = copies.iter().zip(inputs).all(|(copy, input)| copy == input);
        self.meddled.set(self.meddled.get() || !kept);
        Answer::unpack(word)
    }
}

impl Program for Watched {
    fn read_order(&self, order: &[u8], numbers: &mut [u32; Order::NUMBERS]) -> Answer {
        self.lend([order], |[o]| unsafe { jefkantu_read_order(o.0, o.1, numbers) })
    }

    fn write_order(&self, processors: u32, columns: [&[u32]; 4], out: &mut [u8]) -> Answer {
        let (to, room) = (out.as_mut_ptr(), out.len());
        self.lend(columns, |[m, t, d, c]| unsafe {
            jefkantu_write_order(processors, m.0, m.1, t.0, t.1, d.0, d.1, c.0, c.1, to, room)
        })
    }

    fn plan(&self, order: &[u8], out: &mut [u8]) -> Answer {
        self.lend([order], |[o]| unsafe { jefkantu_plan(o.0, o.1, out.as_mut_ptr(), out.len()) })
    }

    fn check(&self, order: &[u8], build: &[u8]) -> Answer {
        self.lend([order, build], |[o, b]| unsafe { jefkantu_check(o.0, o.1, b.0, b.1) })
    }

    fn run(&self, order: &[u8], build: &[u8], script: &[u8], out: &mut [u32]) -> Answer {
        let (to, room) = (out.as_mut_ptr(), out.len());
        self.lend([order, build, script], |[o, b, s]| unsafe {
            jefkantu_run(o.0, o.1, b.0, b.1, s.0, s.1, to, room)
        })
    }

    fn read_text(&self, processors: u32, text: &[u8], out: &mut [u8]) -> Answer {
        let (to, room) = (out.as_mut_ptr(), out.len());
        self.lend([text], |[t]| unsafe { jefkantu_read_text(processors, t.0, t.1, to, room) })
    }

    fn write_text(&self, order: &[u8], out: &mut [u8]) -> Answer {
        let (to, room) = (out.as_mut_ptr(), out.len());
        self.lend([order], |[o]| unsafe { jefkantu_write_text(o.0, o.1, to, room) })
    }

    fn write_list(&self, set: u64, out: &mut [u8]) -> Answer {
        Answer::unpack(unsafe { jefkantu_write_list(set, out.as_mut_ptr(), out.len()) })
    }

    fn read_list(&self, text: &[u8], set: &mut u64) -> Answer {
        self.lend([text], |[t]| unsafe { jefkantu_read_list(t.0, t.1, set) })
    }

    fn partition_sets(&self, order: &[u8], build: &[u8], out: &mut [u64]) -> Answer {
        let (to, room) = (out.as_mut_ptr(), out.len());
        self.lend([order, build], |[o, b]| unsafe {
            jefkantu_partition_sets(o.0, o.1, b.0, b.1, to, room)
        })
    }

    fn late(&self, order: &[u8], build: &[u8], out: &mut [u8]) -> Answer {
        let (to, room) = (out.as_mut_ptr(), out.len());
        self.lend([order, build], |[o, b]| unsafe { jefkantu_late(o.0, o.1, b.0, b.1, to, room) })
    }
}

/// Whether the library's operation is linked.
fn linked(operation: &Operation) -> bool {
    match operation {
        Operation::Read | Operation::Write => cfg!(feature = "read_write"),
        Operation::Plan => cfg!(feature = "plan"),
        Operation::Check => cfg!(feature = "check"),
        Operation::Run => cfg!(feature = "run"),
        Operation::ReadText | Operation::WriteText => cfg!(feature = "text"),
        Operation::WriteList | Operation::ReadList | Operation::PartitionSets => {
            cfg!(feature = "lists")
        }
        Operation::Late => cfg!(feature = "late"),
    }
}

/// The operations to compare: those asked for, or all that are linked.
fn operations(options: &Options) -> Vec<Operation> {
    let mut operations = options.operations();
    if options.only.is_none() {
        operations.retain(linked);
    }
    if operations.is_empty() || !operations.iter().all(linked) {
        eprintln!(
            "not linked; build with --features read_write,plan,check,run,text,lists,late as needed"
        );
        exit(2)
    }
    operations
}

/// What both programs make of a case; none where they differ, which is told.
fn alike(library: &Watched, case: &Case) -> Option<Outcome> {
    let ours = case.outcome(&Second);
    let theirs = case.outcome(library);
    if ours == theirs && !library.meddled.get() {
        return Some(theirs);
    }
    println!("second:  {}", case.line(&ours));
    println!("library: {}", case.line(&theirs));
    if let Some(cell) = ours.first_difference(&theirs) {
        println!("the outputs first differ in cell {cell}");
    }
    if library.meddled.get() {
        println!("the library changed an input");
    }
    None
}

/// That, a text or list that was written is read back as what it was written from, and a late script is seen to miss.
fn holds(library: &Watched, case: &Case) -> Option<Outcome> {
    let outcome = alike(library, case)?;
    if !case.misses(&outcome) {
        println!("not late in the box: {}", case.line(&outcome));
        return None;
    }
    if let Some(read) = case.read_back(&outcome) {
        if !case.came_back(&alike(library, &read)?) {
            println!("read back as another: {}", case.line(&outcome));
            return None;
        }
    }
    Some(outcome)
}

fn main() {
    let options = Options::from_arguments();
    let operations = operations(&options);
    let library = Watched::default();
    let mut tally = Tally::new(&operations);
    for case in cases::drawn(options.seed, options.cases, &operations) {
        let Some(outcome) = holds(&library, &case) else {
            println!("seed {} case {}", options.seed, tally.cases());
            exit(1)
        };
        tally.add(outcome.answer.number, case.operation());
    }
    print!("{tally}");
    println!("{} cases of seed {} agree", tally.cases(), options.seed);
    let (number, times) = tally.rarest();
    if times < options.least {
        println!("number {number} came {times} times, not {}", options.least);
        exit(1);
    }
}
