//! Orders as the text of the order form: a line `m;T;D;C` for each task, its times in milliseconds.

use crate::number::{held, NotHeld, Whole};
use crate::order::Order;
use crate::refusal::{answer, Refusal};
use crate::{filled, surface};
use std::fmt;

/// Why a text was not read.
#[derive(Clone, Debug, PartialEq, Eq, Hash)]
pub enum NotRead {
    /// M is no 32-bit number.
    NotHeld(NotHeld),
    /// The library refused M or the text.
    Refused(Refusal),
}

impl fmt::Display for NotRead {
    fn fmt(&self, to: &mut fmt::Formatter) -> fmt::Result {
        match self {
            NotRead::NotHeld(it) => it.fmt(to),
            NotRead::Refused(it) => it.fmt(to),
        }
    }
}

impl std::error::Error for NotRead {}

impl From<NotHeld> for NotRead {
    fn from(it: NotHeld) -> NotRead {
        NotRead::NotHeld(it)
    }
}

impl From<Refusal> for NotRead {
    fn from(it: Refusal) -> NotRead {
        NotRead::Refused(it)
    }
}

/// Reads M and a text, and gives their order: 52, then line by line 50 and 51, then 3, 4, and task by task 7 to 10.
///
/// M is a whole number of any width, as in [`Order::of`]; real numbers and text do not compile:
///
/// ```compile_fail,E0277
/// jefkantu::read_text(7.5, "");
/// ```
///
/// ```compile_fail,E0277
/// jefkantu::read_text("7,5", "");
/// ```
///
/// The text is any bytes as they were typed, and none is skipped or tidied: a blank or a carriage return is 50.
pub fn read_text(processors: impl Whole, text: impl AsRef<[u8]>) -> Result<Vec<u8>, NotRead> {
    filled(Order::MOST_BYTES, |out| read_text_into(processors, text, out))
}

/// Reads a text into the front of the caller's buffer, and answers its order's length; 12 where it is too short.
pub fn read_text_into(
    processors: impl Whole,
    text: impl AsRef<[u8]>,
    out: &mut [u8],
) -> Result<usize, NotRead> {
    let processors = held("order", "processors", processors)?;
    Ok(answer(surface::read_text(processors, text.as_ref(), out))?)
}

/// Writes an order as text, its times with a point and two decimals: the order's 1 to 10.
pub fn write_text(order: &[u8]) -> Result<String, Refusal> {
    let text = filled(Order::MOST_TEXT_BYTES, |out| write_text_into(order, out))?;
    Ok(text.into_iter().map(char::from).collect())
}

/// Writes an order as text into the front of the caller's buffer, and answers its length; 12 where it is too short.
pub fn write_text_into(order: &[u8], out: &mut [u8]) -> Result<usize, Refusal> {
    answer(surface::write_text(order, out))
}
