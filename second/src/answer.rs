//! What comes back: a number, a place and a count.

/// The place where none applies.
pub const NO_PLACE: u16 = 65_535;

/// One operation's answer.
#[derive(Clone, Copy, Debug, PartialEq, Eq)]
pub struct Answer {
    pub number: u16,
    pub place: u16,
    pub count: u32,
}

impl Answer {
    /// The answer in a C caller's one word: number + place·2^16 + count·2^32.
    pub fn pack(self) -> u64 {
        u64::from(self.number) | u64::from(self.place) << 16 | u64::from(self.count) << 32
    }

    /// The answer that a word holds.
    pub fn unpack(word: u64) -> Self {
        Answer { number: word as u16, place: (word >> 16) as u16, count: (word >> 32) as u32 }
    }
}

impl From<Result<usize, Refusal>> for Answer {
    fn from(result: Result<usize, Refusal>) -> Self {
        match result {
            Ok(count) => Answer { number: 0, place: NO_PLACE, count: count as u32 },
            Err(refusal) => Answer {
                number: refusal.cause as u16,
                place: refusal.place.map_or(NO_PLACE, |place| place as u16),
                count: 0,
            },
        }
    }
}

/// The causes of refusal with the definition's numbers.
#[derive(Clone, Copy, Debug, PartialEq, Eq)]
#[repr(u16)]
pub enum Cause {
    OrderShort = 1,
    OrderVersion = 2,
    Processors = 3,
    Tasks = 4,
    OrderLength = 5,
    OrderSpare = 6,
    Width = 7,
    Period = 8,
    Deadline = 9,
    RunTime = 10,
    NoFit = 11,
    Output = 12,
    Columns = 13,
    BuildShort = 20,
    BuildHeader = 21,
    BuildLength = 22,
    BuildSpare = 23,
    Partition = 24,
    Member = 25,
    Rank = 26,
    Window = 27,
    Start = 28,
    Late = 29,
    Response = 30,
    ScriptLength = 40,
    ScriptSpare = 41,
    NoSuchTask = 42,
    RecordOrder = 43,
    JobLength = 44,
    Gap = 45,
    Places = 46,
    LineShape = 50,
    LineNumber = 51,
    LineCount = 52,
    ListShape = 60,
    ListNumber = 61,
    ListRange = 62,
    NotLate = 63,
    ManyRecords = 64,
    ListLength = 65,
}

/// A cause, and where it was found.
#[derive(Clone, Copy, Debug, PartialEq, Eq)]
pub struct Refusal {
    pub cause: Cause,
    pub place: Option<usize>,
}

impl Cause {
    /// This cause where no place applies.
    pub fn nowhere(self) -> Refusal {
        Refusal { cause: self, place: None }
    }

    /// This cause at a task, partition, record, line or byte.
    pub fn at(self, place: usize) -> Refusal {
        Refusal { cause: self, place: Some(place) }
    }

    /// Refuses without a place unless the rule holds.
    pub fn unless(self, holds: bool) -> Result<(), Refusal> {
        holds.then_some(()).ok_or(self.nowhere())
    }

    /// Refuses at a place unless the rule holds there.
    pub fn unless_at(self, place: usize, holds: bool) -> Result<(), Refusal> {
        holds.then_some(()).ok_or(self.at(place))
    }
}
