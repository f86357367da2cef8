//! Sets of processors, and their lists for the host kernel, as `0-3,7`.

use crate::number::{held_up_to, NotHeld, Whole};
use crate::refusal::{answer, Refusal};
use crate::{filled, surface};
use std::fmt;

/// A set of processors: a 64-bit word, processor 0 its lowest bit. It displays as its list.
///
/// Every 64-bit word is a set. A number of another kind does not compile:
///
/// ```compile_fail,E0308
/// jefkantu::Set(1u128 << 64);
/// ```
///
/// ```compile_fail,E0600
/// jefkantu::Set(-1);
/// ```
///
/// ```compile_fail,E0308
/// jefkantu::Set(7.5);
/// ```
///
/// ```compile_fail,E0308
/// jefkantu::Set("7");
/// ```
#[derive(Clone, Copy, Debug, Default, PartialEq, Eq, Hash)]
#[repr(transparent)]
pub struct Set(pub u64);

impl Set {
    /// The length of the longest list that is written, in bytes.
    pub const MOST_LIST_BYTES: usize = 121;

    /// The length of the longest text that is read as a list, in bytes.
    pub const MOST_LIST_TEXT_BYTES: usize = 1_024;

    /// The largest processor of a set.
    const MOST_PROCESSOR: u32 = 63;

    /// The set of processors in any order, of numbers of any width, or the one that is none from 0 to 63.
    pub fn of<N: Whole>(processors: impl IntoIterator<Item = N>) -> Result<Set, NotHeld> {
        let held = |number| held_up_to(Set::MOST_PROCESSOR, "item", "processor", number);
        processors.into_iter().enumerate().try_fold(Set(0), |set, (row, number)| {
            let processor = held(number).map_err(|it| it.in_row(row))?;
            Ok(Set(set.0 | 1 << processor))
        })
    }

    /// Whether it has a processor; none over 63 is in a set.
    pub fn has(self, processor: u32) -> bool {
        processor <= Set::MOST_PROCESSOR && self.0 >> processor & 1 == 1
    }

    /// Its processors, by rising number.
    pub fn processors(self) -> impl Iterator<Item = u32> {
        (0..=Set::MOST_PROCESSOR).filter(move |&processor| self.has(processor))
    }
}

impl fmt::Display for Set {
    fn fmt(&self, to: &mut fmt::Formatter) -> fmt::Result {
        to.pad(&write_list(*self))
    }
}

/// Writes a set as a list: rising, touching numbers joined, a pair as a range, a single one alone.
pub fn write_list(set: Set) -> String {
    let list = filled(Set::MOST_LIST_BYTES, |out| write_list_into(set, out));
    list.expect("no list is longer").into_iter().map(char::from).collect()
}

/// Writes a set as a list into the front of the caller's buffer, and answers its length; 12 where it is too short.
pub fn write_list_into(set: Set, out: &mut [u8]) -> Result<usize, Refusal> {
    answer(surface::write_list(set, out))
}

/// Reads a list, unsorted or overlapping too, and gives its set: 65, then whichever of 60, 61 and 62 has the lowest place.
///
/// Nothing is skipped or tidied: the line feed of a file that the kernel wrote is 60, and has to be taken off.
pub fn read_list(text: impl AsRef<[u8]>) -> Result<Set, Refusal> {
    let mut set = Set(0);
    answer(surface::read_list(text.as_ref(), &mut set))?;
    Ok(set)
}
