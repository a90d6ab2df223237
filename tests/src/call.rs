//! The calls as data, so that one list can be made on several heaps.

use crate::subject::{Answer, Subject};

/// One of the eleven calls, with its arguments.
#[derive(Clone, Copy, Debug, PartialEq, Eq)]
pub enum Call {
    Get { n: u32 },
    Give { p: u32 },
    Step { p: u32, i: u32 },
    Read { p: u32, w: u8 },
    Write { p: u32, w: u8, v: u32 },
    Left { p: u32 },
    Copy { p: u32, q: u32, n: u32 },
    Fill { p: u32, v: u8, n: u32 },
    Lock { p: u32 },
    Unlock { p: u32 },
    Grid { p: u32, rows: u8, columns: u8, row: u8, column: u8 },
}

/// Each of the eleven calls once, where the arguments don't matter.
pub const CALLS: [Call; 11] = [
    Call::Get { n: 0 },
    Call::Give { p: 0 },
    Call::Step { p: 0, i: 0 },
    Call::Read { p: 0, w: 0 },
    Call::Write { p: 0, w: 0, v: 0 },
    Call::Left { p: 0 },
    Call::Copy { p: 0, q: 0, n: 0 },
    Call::Fill { p: 0, v: 0, n: 0 },
    Call::Lock { p: 0 },
    Call::Unlock { p: 0 },
    Call::Grid { p: 0, rows: 0, columns: 0, row: 0, column: 0 },
];

impl Call {
    /// Makes the call on lent buffers.
    pub fn make<S: Subject>(self, arena: &mut [u8], table: &mut [u8]) -> Answer {
        match self {
            Call::Get { n } => S::get(arena, table, n),
            Call::Give { p } => S::give(arena, table, p),
            Call::Step { p, i } => S::step(arena, table, p, i),
            Call::Read { p, w } => S::read(arena, table, p, w),
            Call::Write { p, w, v } => S::write(arena, table, p, w, v),
            Call::Left { p } => S::left(arena, table, p),
            Call::Copy { p, q, n } => S::copy(arena, table, p, q, n),
            Call::Fill { p, v, n } => S::fill(arena, table, p, v, n),
            Call::Lock { p } => S::lock(arena, table, p),
            Call::Unlock { p } => S::unlock(arena, table, p),
            Call::Grid { p, rows, columns, row, column } => S::grid(arena, table, p, rows, columns, row, column),
        }
    }

    pub fn name(self) -> &'static str {
        match self {
            Call::Get { .. } => "get",
            Call::Give { .. } => "give",
            Call::Step { .. } => "step",
            Call::Read { .. } => "read",
            Call::Write { .. } => "write",
            Call::Left { .. } => "left",
            Call::Copy { .. } => "copy",
            Call::Fill { .. } => "fill",
            Call::Lock { .. } => "lock",
            Call::Unlock { .. } => "unlock",
            Call::Grid { .. } => "grid",
        }
    }

    /// The pointers that the call is given.
    pub fn pointers(self) -> Vec<u32> {
        match self {
            Call::Get { .. } => vec![],
            Call::Copy { p, q, .. } => vec![p, q],
            Call::Give { p } | Call::Step { p, .. } | Call::Read { p, .. } => vec![p],
            Call::Write { p, .. } | Call::Left { p } | Call::Fill { p, .. } => vec![p],
            Call::Lock { p } | Call::Unlock { p } | Call::Grid { p, .. } => vec![p],
        }
    }

    /// The 14 bytes of the call in a list to replay: operation, byte x, numbers a, b, c; 0 where there is none.
    pub fn encode(self) -> [u8; 14] {
        let (operation, x, [a, b, c]) = match self {
            Call::Get { n } => (1, 0, [n, 0, 0]),
            Call::Give { p } => (2, 0, [p, 0, 0]),
            Call::Step { p, i } => (3, 0, [p, i, 0]),
            Call::Read { p, w } => (4, w, [p, 0, 0]),
            Call::Write { p, w, v } => (5, w, [p, v, 0]),
            Call::Left { p } => (6, 0, [p, 0, 0]),
            Call::Copy { p, q, n } => (7, 0, [p, q, n]),
            Call::Fill { p, v, n } => (8, v, [p, 0, n]),
            Call::Lock { p } => (9, 0, [p, 0, 0]),
            Call::Unlock { p } => (10, 0, [p, 0, 0]),
            Call::Grid { p, rows, columns, row, column } => {
                (13, 0, [p, u32::from_be_bytes([rows, columns, row, column]), 0])
            }
        };
        let mut bytes = [0; 14];
        bytes[..2].copy_from_slice(&[operation, x]);
        bytes[2..6].copy_from_slice(&a.to_be_bytes());
        bytes[6..10].copy_from_slice(&b.to_be_bytes());
        bytes[10..].copy_from_slice(&c.to_be_bytes());
        bytes
    }

    /// The call of 14 bytes, if its operation is one of the eleven.
    pub fn decode(bytes: &[u8]) -> Option<Call> {
        let &[operation, x, ref numbers @ ..] = bytes else {
            return None;
        };
        let mut words = numbers.chunks_exact(4).map(|word| word.iter().fold(0, |v, &byte| v << 8 | u32::from(byte)));
        let (p, second, third) = (words.next()?, words.next()?, words.next()?);
        match operation {
            1 => Some(Call::Get { n: p }),
            2 => Some(Call::Give { p }),
            3 => Some(Call::Step { p, i: second }),
            4 => Some(Call::Read { p, w: x }),
            5 => Some(Call::Write { p, w: x, v: second }),
            6 => Some(Call::Left { p }),
            7 => Some(Call::Copy { p, q: second, n: third }),
            8 => Some(Call::Fill { p, v: x, n: third }),
            9 => Some(Call::Lock { p }),
            10 => Some(Call::Unlock { p }),
            13 => {
                let [rows, columns, row, column] = second.to_be_bytes();
                Some(Call::Grid { p, rows, columns, row, column })
            }
            _ => None,
        }
    }
}
