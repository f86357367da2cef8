//! Whole cases: an operation, its inputs and the room for its output.

use crate::answer::Answer;
use crate::generate::random::Random;
use crate::late::Late;
use crate::order::Order;
use crate::program::Program;
use crate::script::{self, Record};

/// The operations.
#[derive(Clone, Copy, Debug, PartialEq, Eq, PartialOrd, Ord)]
pub enum Operation {
    Read,
    Write,
    Plan,
    Check,
    Run,
    ReadText,
    WriteText,
    WriteList,
    ReadList,
    PartitionSets,
    Late,
}

impl Operation {
    /// The largest number that there is.
    pub const MOST: u16 = 65;

    /// Operations that are drawn and counted together, so that each group keeps its cases.
    const GROUPS: [&[Operation]; 7] = [
        &[Operation::Read, Operation::Write, Operation::Plan, Operation::Check, Operation::Run],
        &[Operation::ReadText],
        &[Operation::WriteText],
        &[Operation::WriteList],
        &[Operation::ReadList],
        &[Operation::PartitionSets],
        &[Operation::Late],
    ];

    pub fn all() -> Vec<Operation> {
        Operation::GROUPS.concat()
    }

    /// The groups that some operations make.
    pub fn groups(of: &[Operation]) -> Vec<Vec<Operation>> {
        let among = |operation: &Operation| of.contains(operation);
        let groups = Operation::GROUPS.into_iter();
        let groups = groups.map(|group| group.iter().copied().filter(among).collect());
        groups.filter(|group: &Vec<Operation>| !group.is_empty()).collect()
    }

    pub fn name(self) -> &'static str {
        match self {
            Operation::Read => "read",
            Operation::Write => "write",
            Operation::Plan => "plan",
            Operation::Check => "check",
            Operation::Run => "run",
            Operation::ReadText => "read_text",
            Operation::WriteText => "write_text",
            Operation::WriteList => "write_list",
            Operation::ReadList => "read_list",
            Operation::PartitionSets => "partition_sets",
            Operation::Late => "late",
        }
    }

    /// Whether the definition lists a number among this operation's answers.
    pub fn can_answer(self, number: u16) -> bool {
        match self {
            Operation::Read => matches!(number, 0..=10),
            Operation::Write => matches!(number, 0 | 3 | 4 | 7..=10 | 12 | 13),
            Operation::Plan => matches!(number, 0..=12),
            Operation::Check => matches!(number, 0..=10 | 20..=30),
            Operation::Run => matches!(number, 0..=10 | 20..=30 | 40..=46),
            Operation::ReadText => matches!(number, 0 | 3 | 4 | 7..=10 | 12 | 50..=52),
            Operation::WriteText => matches!(number, 0..=10 | 12),
            Operation::WriteList => matches!(number, 0 | 12),
            Operation::ReadList => matches!(number, 0 | 60..=62 | 65),
            Operation::PartitionSets => matches!(number, 0..=10 | 12 | 20..=30),
            Operation::Late => matches!(number, 0..=10 | 12 | 63 | 64),
        }
    }
}

/// What one operation is given.
#[derive(Clone, Debug)]
pub enum Case {
    Read { order: Vec<u8> },
    Write { processors: u32, columns: [Vec<u32>; 4], room: usize },
    Plan { order: Vec<u8>, room: usize },
    Check { order: Vec<u8>, build: Vec<u8> },
    Run { order: Vec<u8>, build: Vec<u8>, script: Vec<u8>, room: usize },
    ReadText { processors: u32, text: Vec<u8>, room: usize },
    WriteText { order: Vec<u8>, room: usize },
    WriteList { set: u64, room: usize },
    ReadList { text: Vec<u8> },
    PartitionSets { order: Vec<u8>, build: Vec<u8>, room: usize },
    Late { order: Vec<u8>, build: Vec<u8>, room: usize },
}

/// An answer, and the memory around and in the output afterwards.
#[derive(Clone, Debug, PartialEq, Eq)]
pub struct Outcome {
    pub answer: Answer,
    pub bytes: Vec<u8>,
    pub words: Vec<u32>,
    pub sets: Vec<u64>,
}

impl Outcome {
    /// The bytes of the output, without the margins.
    pub fn output_bytes(&self) -> &[u8] {
        within(&self.bytes)
    }

    /// The words of the output, without the margins.
    pub fn output_words(&self) -> &[u32] {
        within(&self.words)
    }

    /// The sets of the output, without the margins.
    pub fn output_sets(&self) -> &[u64] {
        within(&self.sets)
    }

    /// The first cell, counted from the output's front, in which the memory differs.
    pub fn first_difference(&self, other: &Outcome) -> Option<isize> {
        let mut bytes = self.bytes.iter().zip(&other.bytes);
        let mut words = self.words.iter().zip(&other.words);
        let mut sets = self.sets.iter().zip(&other.sets);
        let cell = bytes.position(|(a, b)| a != b);
        let cell = cell.or_else(|| words.position(|(a, b)| a != b));
        let cell = cell.or_else(|| sets.position(|(a, b)| a != b))?;
        Some(cell as isize - MARGIN as isize)
    }
}

/// Cells before and after the output that no program may touch.
const MARGIN: usize = 32;

impl Case {
    pub fn operation(&self) -> Operation {
        match self {
            Case::Read { .. } => Operation::Read,
            Case::Write { .. } => Operation::Write,
            Case::Plan { .. } => Operation::Plan,
            Case::Check { .. } => Operation::Check,
            Case::Run { .. } => Operation::Run,
            Case::ReadText { .. } => Operation::ReadText,
            Case::WriteText { .. } => Operation::WriteText,
            Case::WriteList { .. } => Operation::WriteList,
            Case::ReadList { .. } => Operation::ReadList,
            Case::PartitionSets { .. } => Operation::PartitionSets,
            Case::Late { .. } => Operation::Late,
        }
    }

    /// What a program makes of the case, over memory of which no cell is plain.
    pub fn outcome(&self, program: &impl Program) -> Outcome {
        self.outcome_over(program, Random::word)
    }

    /// What a program makes of the case, over memory that is filled with such words.
    pub fn outcome_over(&self, program: &impl Program, fill: fn(&mut Random) -> u64) -> Outcome {
        let (mut bytes, mut words, mut sets) = (Vec::new(), Vec::new(), Vec::new());
        let answer = match self {
            Case::Read { order } => {
                words = memory(Order::NUMBERS, fill, |word| word as u32);
                let (numbers, _) = words[MARGIN..].split_first_chunk_mut().unwrap();
                program.read_order(order, numbers)
            }
            Case::Write { processors, columns, room } => {
                bytes = memory(*room, fill, |word| word as u8);
                let columns = columns.each_ref().map(|column| &column[..]);
                program.write_order(*processors, columns, inside(&mut bytes))
            }
            Case::Plan { order, room } => {
                bytes = memory(*room, fill, |word| word as u8);
                program.plan(order, inside(&mut bytes))
            }
            Case::Check { order, build } => program.check(order, build),
            Case::Run { order, build, script, room } => {
                words = memory(*room, fill, |word| word as u32);
                program.run(order, build, script, inside(&mut words))
            }
            Case::ReadText { processors, text, room } => {
                bytes = memory(*room, fill, |word| word as u8);
                program.read_text(*processors, text, inside(&mut bytes))
            }
            Case::WriteText { order, room } => {
                bytes = memory(*room, fill, |word| word as u8);
                program.write_text(order, inside(&mut bytes))
            }
            Case::WriteList { set, room } => {
                bytes = memory(*room, fill, |word| word as u8);
                program.write_list(*set, inside(&mut bytes))
            }
            Case::ReadList { text } => {
                sets = memory(1, fill, |word| word);
                program.read_list(text, &mut sets[MARGIN])
            }
            Case::PartitionSets { order, build, room } => {
                sets = memory(*room, fill, |word| word);
                program.partition_sets(order, build, inside(&mut sets))
            }
            Case::Late { order, build, room } => {
                bytes = memory(*room, fill, |word| word as u8);
                program.late(order, build, inside(&mut bytes))
            }
        };
        Outcome { answer, bytes, words, sets }
    }

    /// The case that reads back what was written as text or as a list.
    pub fn read_back(&self, outcome: &Outcome) -> Option<Case> {
        let written = || outcome.output_bytes()[..outcome.answer.count as usize].to_vec();
        match self {
            _ if outcome.answer.number != 0 => None,
            Case::WriteText { order, .. } => {
                let processors = Order::read(order).ok()?.processors;
                Some(Case::ReadText { processors, text: written(), room: order.len() })
            }
            Case::WriteList { .. } => Some(Case::ReadList { text: written() }),
            _ => None,
        }
    }

    /// Whether what was written came back by such a case.
    pub fn came_back(&self, read: &Outcome) -> bool {
        match self {
            Case::WriteText { order, .. } => read.output_bytes() == order,
            Case::WriteList { set, .. } => read.output_sets() == [*set],
            _ => true,
        }
    }

    /// Whether a late script that was written is legal, and misses in the step machine.
    pub fn misses(&self, outcome: &Outcome) -> bool {
        let Case::Late { order, build, .. } = self else { return true };
        let written = &outcome.output_bytes()[..outcome.answer.count as usize];
        outcome.answer.number != 0
            || Late::new(order, build).is_ok_and(|late| {
                let script = script::read(written, &late.order, Record::MOST);
                script.is_ok_and(|script| late.is_shown_by(&script))
            })
    }

    /// The case and its outcome as a line of text, as the README says.
    pub fn line(&self, outcome: &Outcome) -> String {
        let given = match self {
            Case::Read { order } => hex(order),
            Case::Write { processors, columns, room } => {
                let [m, t, d, c] = columns.each_ref().map(|column| hex_words(column));
                format!("{processors} {m} {t} {d} {c} {room}")
            }
            Case::Plan { order, room } | Case::WriteText { order, room } => {
                format!("{} {room}", hex(order))
            }
            Case::Check { order, build } => format!("{} {}", hex(order), hex(build)),
            Case::Run { order, build, script, room } => {
                format!("{} {} {} {room}", hex(order), hex(build), hex(script))
            }
            Case::ReadText { processors, text, room } => {
                format!("{processors} {} {room}", hex(text))
            }
            Case::WriteList { set, room } => format!("{} {room}", hex_sets(&[*set])),
            Case::ReadList { text } => hex(text),
            Case::PartitionSets { order, build, room } | Case::Late { order, build, room } => {
                format!("{} {} {room}", hex(order), hex(build))
            }
        };
        let Answer { number, place, count } = outcome.answer;
        let counted = count as usize;
        let written = match self {
            Case::Read { .. } if number == 0 => hex_words(outcome.output_words()),
            Case::ReadList { .. } if number == 0 => hex_sets(outcome.output_sets()),
            Case::Read { .. } | Case::Check { .. } | Case::ReadList { .. } => hex(&[]),
            Case::PartitionSets { .. } => hex_sets(&outcome.output_sets()[..counted]),
            Case::Run { .. } => hex_words(&outcome.output_words()[..counted]),
            _ => hex(&outcome.output_bytes()[..counted]),
        };
        let name = self.operation().name();
        format!("{name} {given} {number} {place} {count} {written}")
    }
}

/// Memory with a margin on either side.
fn memory<T>(room: usize, fill: fn(&mut Random) -> u64, cell: fn(u64) -> T) -> Vec<T> {
    let mut random = Random::new(room as u64);
    let cells = 0..room + 2 * MARGIN;
    cells.map(|_| cell(fill(&mut random))).collect()
}

/// The part that a program is given.
fn inside<T>(memory: &mut [T]) -> &mut [T] {
    let end = memory.len() - MARGIN;
    &mut memory[MARGIN..end]
}

/// The part that a program was given; nothing where there is no memory.
fn within<T>(memory: &[T]) -> &[T] {
    let end = memory.len().saturating_sub(MARGIN);
    memory.get(MARGIN..end).unwrap_or(&[])
}

/// Two digits a byte; `-` for none.
fn hex(bytes: &[u8]) -> String {
    match bytes {
        [] => "-".into(),
        _ => bytes.iter().map(|byte| format!("{byte:02X}")).collect(),
    }
}

/// Eight digits a word; `-` for none.
fn hex_words(words: &[u32]) -> String {
    let bytes = words.iter().flat_map(|word| word.to_be_bytes());
    hex(&bytes.collect::<Vec<u8>>())
}

/// Sixteen digits a set; `-` for none.
fn hex_sets(sets: &[u64]) -> String {
    let bytes = sets.iter().flat_map(|set| set.to_be_bytes());
    hex(&bytes.collect::<Vec<u8>>())
}
