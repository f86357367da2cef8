//! Numbers on their way in: each comes through whole, or says which one it was.

use std::fmt;

/// A number that its field does not hold: nothing was cut, and nothing was written.
#[derive(Clone, Debug, PartialEq, Eq, Hash)]
#[non_exhaustive]
pub struct NotHeld {
    /// What has the field: `"order"`, `"task"`, `"record"` or `"item"`, of a set.
    pub kind: &'static str,
    /// Which task, record or item, counted from 0, where it is one of many.
    pub row: Option<usize>,
    /// Its field, as `"period"`.
    pub field: &'static str,
    /// The number.
    pub number: String,
    /// The most that the field holds; the least is 0.
    pub most: u32,
}

impl fmt::Display for NotHeld {
    fn fmt(&self, to: &mut fmt::Formatter) -> fmt::Result {
        let NotHeld { kind, row, field, number, most } = self;
        write!(to, "{kind}")?;
        if let Some(row) = row {
            write!(to, " {row}")?;
        }
        write!(to, ", {field}: {number} is not from 0 to {most}")
    }
}

impl std::error::Error for NotHeld {}

impl NotHeld {
    /// The same, in a row.
    pub(crate) fn in_row(self, row: usize) -> NotHeld {
        NotHeld { row: Some(row), ..self }
    }
}

/// A whole number of any width, signed or not. Real numbers, text and characters are none, so they do not compile:
///
/// ```compile_fail,E0277
/// jefkantu::Task::of(1, 7.5, 7, 4);
/// ```
///
/// ```compile_fail,E0277
/// jefkantu::Task::of(1, "7,5", 7, 4);
/// ```
///
/// ```compile_fail,E0277
/// jefkantu::Task::of(1, '7', 7, 4);
/// ```
///
/// ```
/// jefkantu::Task::of(1u8, 750i64, 750usize, -4i128).unwrap_err();
/// ```
pub trait Whole: Copy + fmt::Display + TryInto<u32> + sealed::Integer {}

impl<N: Copy + fmt::Display + TryInto<u32> + sealed::Integer> Whole for N {}

/// The integers, and nothing else that turns into a `u32`, as characters do.
mod sealed {
    pub trait Integer {}

    macro_rules! integers {
        ($($integer:ty)*) => { $(impl Integer for $integer {})* };
    }

    integers!(u8 u16 u32 u64 u128 usize i8 i16 i32 i64 i128 isize);
}

/// A number of an order or a task, which 32 bits must hold.
pub(crate) fn held(
    kind: &'static str,
    field: &'static str,
    number: impl Whole,
) -> Result<u32, NotHeld> {
    held_up_to(u32::MAX, kind, field, number)
}

/// A number that its field must hold.
pub(crate) fn held_up_to(
    most: u32,
    kind: &'static str,
    field: &'static str,
    number: impl Whole,
) -> Result<u32, NotHeld> {
    match number.try_into() {
        Ok(held) if held <= most => Ok(held),
        _ => Err(NotHeld { kind, row: None, field, number: number.to_string(), most }),
    }
}

/// A column for the writer, of numbers of any width.
pub fn column<N: Whole>(
    field: &'static str,
    numbers: impl IntoIterator<Item = N>,
) -> Result<Vec<u32>, NotHeld> {
    let each = |(row, number)| held("task", field, number).map_err(|it| it.in_row(row));
    numbers.into_iter().enumerate().map(each).collect()
}
