//! The library's own way through plan, check and the late job, step by step, with its terms counted.
//!
//! A term is one member looked at in one evaluation of what is asked: its releases by a division or by one step on, or
//! its part in the line below the demand. Orders that are slow for the library are searched by this count (`climb`).
//! Each function here follows the one of its name in `crates/asked`, `crates/verdict`, `crates/trial` and
//! `crates/late_find`.

mod asked;
mod check;
mod late;
mod plan;
mod trial;
mod verdict;

pub use check::{check, most_terms, worst_responses};
pub use late::{late, LateJob};
pub use plan::plan;

/// The most terms of a plan, of a check, and of a late job beside its check.
pub const MOST_OF_PLAN: u64 = 10_000_000;
pub const MOST_OF_CHECK: u64 = 3_000_000;
pub const MOST_OF_LATE: u64 = 3_000_000;
