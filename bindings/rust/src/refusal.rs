//! What comes back where an order, a text, a build, a script or a list is refused.

use std::fmt;

/// The place of an answer where none applies.
const NO_PLACE: u16 = 65_535;

/// Each number with its place and words, stated once for every language.
const TABLE: &str = include_str!("../../python/causes.txt");

/// A number of the document's table "What comes back".
#[derive(Clone, Copy, Debug, PartialEq, Eq)]
#[non_exhaustive]
pub struct Cause {
    /// Its number.
    pub number: u16,
    /// What its place counts, `"task"`, `"partition"`, `"record"`, `"line"` or `"byte"`; none where it never has one.
    pub place: Option<&'static str>,
    /// Its words.
    pub words: &'static str,
}

impl Cause {
    /// The whole table, by rising number.
    pub fn all() -> impl Iterator<Item = Cause> {
        TABLE.lines().filter_map(Cause::of_line)
    }

    /// The cause with a number.
    pub fn numbered(number: u16) -> Option<Cause> {
        Cause::all().find(|cause| cause.number == number)
    }

    /// A line of the table; none where it is a comment.
    fn of_line(line: &'static str) -> Option<Cause> {
        let (number, rest) = line.split_once(' ')?;
        let (place, words) = rest.split_once(' ')?;
        Some(Cause { number: number.parse().ok()?, place: (place != "-").then_some(place), words })
    }
}

/// A refusal: nothing was written, and this is why.
#[derive(Clone, Copy, Debug, PartialEq, Eq, Hash)]
#[non_exhaustive]
pub struct Refusal {
    /// The number of its cause.
    pub number: u16,
    /// The task, partition, record, line or byte, counted from 0, where one applies.
    pub place: Option<u16>,
}

impl Refusal {
    /// The words of its cause.
    pub fn words(&self) -> &'static str {
        Cause::numbered(self.number).map_or("a cause that the table does not have", |it| it.words)
    }
}

impl fmt::Display for Refusal {
    fn fmt(&self, to: &mut fmt::Formatter) -> fmt::Result {
        write!(to, "refused {}", self.number)?;
        if let Some(place) = self.place {
            let kind = Cause::numbered(self.number).and_then(|cause| cause.place);
            write!(to, " at {} {place}", kind.unwrap_or("place"))?;
        }
        write!(to, ": {}", self.words())
    }
}

impl std::error::Error for Refusal {}

/// Takes an answer's word apart: number + place * 2^16 + count * 2^32.
pub(crate) fn answer(word: u64) -> Result<usize, Refusal> {
    let [number, place] = [word as u16, (word >> 16) as u16];
    match number {
        0 => Ok((word >> 32) as usize),
        _ => Err(Refusal { number, place: (place != NO_PLACE).then_some(place) }),
    }
}
