//! The records of a take as data, for every reader and writer of them.

/// One record; d, a and b are register numbers, i is two's complement.
#[derive(Clone, Copy, Debug, PartialEq, Eq)]
pub enum Record {
    Get { d: u8, n: u32 },
    Give { a: u8 },
    Step { d: u8, a: u8, i: u32 },
    Read { d: u8, a: u8, w: u8 },
    Write { a: u8, w: u8, v: u32 },
    Left { d: u8, a: u8 },
    Copy { d: u8, a: u8, b: u8, n: u32 },
    Fill { d: u8, a: u8, v: u8, n: u32 },
    Lock { a: u8 },
    Unlock { a: u8 },
    Again { d: u8, k: u16 },
    Set { d: u8, n: u32 },
    Grid { d: u8, a: u8, rows: u8, columns: u8, row: u8, column: u8 },
}

impl Record {
    /// The name of its operation, which is that of the call that it makes if it makes one.
    pub fn name(self) -> &'static str {
        match self {
            Record::Get { .. } => "get",
            Record::Give { .. } => "give",
            Record::Step { .. } => "step",
            Record::Read { .. } => "read",
            Record::Write { .. } => "write",
            Record::Left { .. } => "left",
            Record::Copy { .. } => "copy",
            Record::Fill { .. } => "fill",
            Record::Lock { .. } => "lock",
            Record::Unlock { .. } => "unlock",
            Record::Again { .. } => "again",
            Record::Set { .. } => "set",
            Record::Grid { .. } => "grid",
        }
    }
}
