//! The refusals: one name for each number of 01's table, and the place some of them give.

/// Why a call is refused; the value is 01's refusal number.
#[derive(Clone, Copy, PartialEq, Eq, Debug)]
#[repr(u8)]
pub enum Reason {
    Address = 1,
    OddWordAddress = 2,
    SetUp = 3,
    Level = 4,
    StampsAndLevelsDiffer = 5,
    TooManySamples = 6,
    StampNotAbove = 7,
    ShortBuffer = 8,
    IncompleteList = 9,
    Gap = 10,
    LastStamp = 11,
    MasterCount = 12,
    MessageLength = 13,
    ReadMessage = 14,
    Acknowledges = 15,
    Undecided = 16,
    NoWaiting = 17,
    ShortPhase = 18,
    EmptyRecord = 19,
    UnknownValue = 20,
    StampNotRising = 21,
    Undeclared = 22,
    CutText = 23,
    Wires = 24,
    LargeStamp = 25,
    LongText = 26,
    Form = 27,
    BoardsDoNotRise = 40,
    BoardLengths = 41,
    BoardAbsent = 42,
    NotAcknowledged = 43,
}

/// A refusal as a reply states it; the place is 0 where the table gives none.
#[derive(Clone, Copy, PartialEq, Eq, Debug)]
pub struct Refusal {
    pub reason: Reason,
    pub place: usize,
}

impl Reason {
    /// The refusal without a place.
    pub const fn refusal(self) -> Refusal {
        self.at(0)
    }

    /// The refusal with its place.
    pub const fn at(self, place: usize) -> Refusal {
        Refusal { reason: self, place }
    }
}

impl Refusal {
    /// 01's number of this refusal.
    pub const fn number(self) -> u8 {
        self.reason as u8
    }
}
