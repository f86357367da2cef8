//! Random orders, builds, late ones too, scripts, texts, lists and whole cases, the same ones for the same seed.

pub mod builds;
pub mod cases;
pub mod cores;
pub mod damage;
pub mod late;
pub mod lists;
pub mod orders;
pub mod papers;
pub mod random;
pub mod scripts;
pub mod slow;
pub mod texts;

use crate::order::Task;

/// How large the drawn things may get.
#[derive(Clone, Copy, Debug, PartialEq, Eq)]
pub struct Scale {
    pub tasks: u32,
    pub period: u32,
    pub records: u32,
}

impl Scale {
    /// All that the definition allows.
    pub const FULL: Scale = Scale { tasks: 32, period: Task::PERIOD, records: 1_024 };
    /// Small enough to try every tick.
    pub const SMALL: Scale = Scale { tasks: 5, period: 24, records: 40 };
}
