//! Vectors: which cases are taken, and the forms they are written in.

use crate::case::{Case, Operation, Outcome};
use crate::order::Order;
use crate::program::Second;
use crate::script::Record;
use crate::set;
use crate::tally::Tally;

/// How vectors are written.
#[derive(Clone, Copy, Debug, PartialEq, Eq)]
pub enum Form {
    /// Cases with their answers, a line each.
    Text,
    /// The cases alone, in bytes.
    Cases,
    /// The answers to these, a line each.
    Answers,
}

impl Form {
    pub fn named(name: &str) -> Option<Form> {
        match name {
            "text" => Some(Form::Text),
            "cases" => Some(Form::Cases),
            "answers" => Some(Form::Answers),
            _ => None,
        }
    }

    /// A case in this form.
    pub fn of(self, case: &Case, outcome: &Outcome) -> Vec<u8> {
        match self {
            Form::Text => (case.line(outcome) + "\n").into_bytes(),
            Form::Cases => record(case),
            Form::Answers => answer(case).into_bytes(),
        }
    }
}

/// What a case is taken for, besides its operation and number.
#[derive(Clone, Copy, Debug, PartialEq, Eq)]
enum Kind {
    /// A short script or none.
    Short,
    /// That, done, and with many tasks, lines or items.
    Many,
    /// A script of the most records there can be, or more: done with many tasks, or refused itself.
    Long,
}

impl Kind {
    const ALL: [Kind; 3] = [Kind::Short, Kind::Many, Kind::Long];
    /// The most records of a short script.
    const SHORT: usize = 64;
    /// The least of many tasks, lines or items.
    const MANY: usize = 4;
    /// The longest text that is taken, in bytes.
    const TEXT: usize = 1_500;

    fn of(case: &Case, number: u16) -> Option<Kind> {
        if let Case::ReadText { text, .. } | Case::ReadList { text } = case {
            if text.len() > Kind::TEXT {
                return None;
            }
        }
        let many = parts(case) >= Kind::MANY;
        match (records(case), number) {
            (0..=Kind::SHORT, 0) if many => Some(Kind::Many),
            (0..=Kind::SHORT, _) => Some(Kind::Short),
            (Record::MOST.., 0) if many => Some(Kind::Long),
            (Record::MOST.., 40..) => Some(Kind::Long),
            _ => None,
        }
    }

    /// How many are taken.
    fn wanted(self, operation: Operation, number: u16, each: u32) -> u32 {
        match (self, operation, number) {
            (Kind::Short, _, _) => each,
            (Kind::Many, _, 0) => 4 * each,
            (Kind::Long, Operation::Run, 0) => each,
            (Kind::Long, Operation::Run, 40..) | (Kind::Long, Operation::Late, 0 | 64) => {
                each.div_ceil(4)
            }
            _ => 0,
        }
    }
}

/// Counts the cases taken, so that each number of each operation comes often enough.
pub struct Choice {
    operations: Vec<Operation>,
    each: u32,
    taken: [Tally; 3],
}

impl Choice {
    pub fn new(operations: &[Operation], each: u32) -> Choice {
        let taken = Kind::ALL.map(|_| Tally::new(operations));
        Choice { operations: operations.to_vec(), each, taken }
    }

    /// Whether a case with this number is still wanted; it is counted if so.
    pub fn takes(&mut self, case: &Case, number: u16) -> bool {
        let wanted = |kind: &Kind| self.lacks(*kind, case.operation(), number);
        let kind = Kind::of(case, number).filter(wanted);
        if let Some(kind) = kind {
            self.taken[kind as usize].add(number, case.operation());
        }
        kind.is_some()
    }

    /// Whether no case is wanted any more; no input brings about 28.
    pub fn is_complete(&self) -> bool {
        let mut answers = self.operations.iter().flat_map(|&operation| {
            let numbers = (0..=Operation::MOST).filter(move |&number| operation.can_answer(number));
            numbers.map(move |number| (operation, number))
        });
        answers.all(|(operation, number)| {
            let lacks = |kind: Kind| self.lacks(kind, operation, number);
            number == 28 || !Kind::ALL.into_iter().any(lacks)
        })
    }

    fn lacks(&self, kind: Kind, operation: Operation, number: u16) -> bool {
        self.taken[kind as usize].of(number, operation) < kind.wanted(operation, number, self.each)
    }
}

/// The whole records of a case's script, or those that a script to be written has room for.
fn records(case: &Case) -> usize {
    match case {
        Case::Run { script, .. } => script.len() / Record::LAYOUT.bytes(),
        Case::Late { room, .. } => room / Record::LAYOUT.bytes(),
        _ => 0,
    }
}

/// The tasks that a case's order or first column has room for, the lines of its text, or the items of its list.
fn parts(case: &Case) -> usize {
    match case {
        Case::Write { columns: [widths, ..], .. } => widths.len(),
        Case::ReadText { text, .. } => text.iter().filter(|&&byte| byte == b'\n').count(),
        Case::WriteList { set, .. } => set::runs(*set).count(),
        Case::ReadList { text } => text.split(|&byte| byte == b',').count(),
        Case::Read { order }
        | Case::Plan { order, .. }
        | Case::Check { order, .. }
        | Case::Run { order, .. }
        | Case::WriteText { order, .. }
        | Case::PartitionSets { order, .. }
        | Case::Late { order, .. } => order.len() / Order::TASK.bytes(),
    }
}

/// What fills the output before the call whose answer is written.
const FILL: u64 = 0xA5A5_A5A5_A5A5_A5A5;

/// A case as bytes: its operation, counted from 1, then what that is given.
fn record(case: &Case) -> Vec<u8> {
    let mut bytes = vec![case.operation() as u8 + 1];
    match case {
        Case::Read { order } => put_bytes(&mut bytes, order),
        Case::Write { processors, columns, room } => {
            bytes.extend(processors.to_be_bytes());
            columns.iter().for_each(|column| put_column(&mut bytes, column));
            put_length(&mut bytes, *room);
        }
        Case::Plan { order, room } | Case::WriteText { order, room } => {
            put_bytes(&mut bytes, order);
            put_length(&mut bytes, *room);
        }
        Case::Check { order, build } => {
            put_bytes(&mut bytes, order);
            put_bytes(&mut bytes, build);
        }
        Case::Run { order, build, script, room } => {
            [order, build, script].iter().for_each(|part| put_bytes(&mut bytes, part));
            put_length(&mut bytes, *room);
        }
        Case::ReadText { processors, text, room } => {
            bytes.extend(processors.to_be_bytes());
            put_bytes(&mut bytes, text);
            put_length(&mut bytes, *room);
        }
        Case::WriteList { set, room } => {
            bytes.extend(set.to_be_bytes());
            put_length(&mut bytes, *room);
        }
        Case::ReadList { text } => put_bytes(&mut bytes, text),
        Case::PartitionSets { order, build, room } | Case::Late { order, build, room } => {
            [order, build].iter().for_each(|part| put_bytes(&mut bytes, part));
            put_length(&mut bytes, *room);
        }
    }
    bytes
}

/// A length in two bytes.
fn put_length(bytes: &mut Vec<u8>, length: usize) {
    let length = u16::try_from(length).expect("lengths of cases are short");
    bytes.extend(length.to_be_bytes());
}

/// A length, then so many bytes.
fn put_bytes(bytes: &mut Vec<u8>, part: &[u8]) {
    put_length(bytes, part.len());
    bytes.extend(part);
}

/// A length, then so many numbers of four bytes.
fn put_column(bytes: &mut Vec<u8>, column: &[u32]) {
    put_length(bytes, column.len());
    bytes.extend(column.iter().flat_map(|number| number.to_be_bytes()));
}

/// The answer to a case, and all that the output then holds, in hexadecimal.
fn answer(case: &Case) -> String {
    let outcome = case.outcome_over(&Second, |_| FILL);
    let (name, answer) = (case.operation().name(), outcome.answer);
    let mut line = format!("{name} {} {} {}", answer.number, answer.place, answer.count);
    let bytes = outcome.output_bytes().iter().map(|byte| format!(" {byte:02x}"));
    let words = outcome.output_words().iter().map(|word| format!(" {word:08x}"));
    let sets = outcome.output_sets().iter().map(|set| format!(" {set:016x}"));
    line.extend(bytes.chain(words).chain(sets));
    line + "\n"
}
