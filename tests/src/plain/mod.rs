//! Document 01 in plain Rust, with the requests of document 02 that have landed, written from the papers alone.
//! The tests compare the proved library with it, and the benchmarks take it for what one would use instead.

pub mod heap;
pub mod replay;
pub mod runner;
pub mod takes;

/// Why a call, a record or a file is refused, with the paper's number.
#[derive(Clone, Copy, Debug, PartialEq, Eq)]
#[repr(u32)]
pub enum Refusal {
    Version = 1,
    Size = 2,
    FileTooLong = 3,
    RecordLength = 4,
    Operation = 5,
    OperationLength = 6,
    Register = 7,
    Lengths = 8,
    Room = 9,
    GetSize = 10,
    Width = 11,
    ValueTooWide = 12,
    Marked = 13,
    Damaged = 20,
    NoFreeRange = 21,
    FreeSlot = 22,
    NotTheStart = 23,
    BeyondReach = 24,
    PastTheEnd = 25,
    TooManyRecords = 26,
    Outside = 27,
    Locked = 28,
    NotBack = 29,
    NotInGrid = 30,
}

impl Refusal {
    pub fn number(self) -> u32 {
        self as u32
    }
}
