//! The proved library, through its C interface (include/tulivombe.h).
//!
//! No exported function has a `requires`, so each is safe on any slices: a `&[u8]` passes as its pointer and
//! its length. Nothing checks these declarations against the header but `tests/c_interface.rs`.

use crate::record::Record;
use crate::subject::{Answer, Part, Place, Ran, Subject};

/// A record as C sees it.
#[derive(Clone, Copy, Debug, Default, PartialEq, Eq)]
#[repr(C)]
pub struct FlatRecord {
    pub operation: u8,
    pub d: u8,
    pub a: u8,
    pub b: u8,
    pub byte: u8,
    pub index: u16,
    pub word: u32,
    pub rows: u8,
    pub columns: u8,
    pub row: u8,
    pub column: u8,
}

#[derive(Clone, Copy, Debug, PartialEq, Eq)]
#[repr(C)]
pub struct FlatPlace {
    pub number: u32,
    pub record: FlatRecord,
    pub next: usize,
}

/// Registers as C lends them.
#[derive(Clone, Copy, Debug, PartialEq, Eq)]
#[repr(C)]
pub struct Registers {
    pub values: [u32; 16],
}

#[rustfmt::skip]
unsafe extern "C" {
    fn tulivombe_fresh(arena: *mut u8, arena_len: usize, table: *mut u8, table_len: usize) -> Answer;
    fn tulivombe_get(arena: *mut u8, arena_len: usize, table: *mut u8, table_len: usize, n: u32) -> Answer;
    fn tulivombe_give(arena: *const u8, arena_len: usize, table: *mut u8, table_len: usize, p: u32) -> Answer;
    fn tulivombe_step(arena: *const u8, arena_len: usize, table: *const u8, table_len: usize, p: u32, i: u32) -> Answer;
    fn tulivombe_read(arena: *const u8, arena_len: usize, table: *const u8, table_len: usize, p: u32, w: u8) -> Answer;
    fn tulivombe_write(arena: *mut u8, arena_len: usize, table: *const u8, table_len: usize, p: u32, w: u8, v: u32) -> Answer;
    fn tulivombe_left(arena: *const u8, arena_len: usize, table: *const u8, table_len: usize, p: u32) -> Answer;
    fn tulivombe_copy(arena: *mut u8, arena_len: usize, table: *const u8, table_len: usize, p: u32, q: u32, n: u32) -> Answer;
    fn tulivombe_fill(arena: *mut u8, arena_len: usize, table: *const u8, table_len: usize, p: u32, v: u8, n: u32) -> Answer;
    fn tulivombe_lock(arena: *const u8, arena_len: usize, table: *mut u8, table_len: usize, p: u32) -> Answer;
    fn tulivombe_unlock(arena: *const u8, arena_len: usize, table: *mut u8, table_len: usize, p: u32) -> Answer;
    fn tulivombe_grid(arena: *const u8, arena_len: usize, table: *const u8, table_len: usize, p: u32, rows: u8, columns: u8, row: u8, column: u8) -> Answer;
    fn tulivombe_check(arena: *const u8, arena_len: usize, table: *const u8, table_len: usize, h: u32, i: u32) -> Answer;
    fn tulivombe_show(arena: *const u8, arena_len: usize, table: *const u8, table_len: usize, p: u32) -> Part;
    fn tulivombe_run(file: *const u8, file_len: usize, arena: *mut u8, arena_len: usize, table: *mut u8, table_len: usize, answers: *mut u8, answers_len: usize, budget: u32) -> Ran;
    fn tulivombe_run_panel(file: *const u8, file_len: usize, arena: *mut u8, arena_len: usize, table: *mut u8, table_len: usize, answers: *mut u8, answers_len: usize, budget: u32) -> Ran;
    fn tulivombe_put_register(registers: *mut Registers, d: u8, v: u32) -> u32;
    fn tulivombe_replay(arena: *mut u8, arena_len: usize, table: *mut u8, table_len: usize, calls: *const u8, calls_len: usize, out: *mut u8, out_len: usize) -> u32;
    fn tulivombe_read_record(file: *const u8, file_len: usize, at: usize) -> FlatPlace;
    fn tulivombe_write_head(out: *mut u8, out_len: usize, m: u32) -> Answer;
    fn tulivombe_write_record(out: *mut u8, out_len: usize, record: FlatRecord) -> Answer;
}

pub struct Library;

impl Subject for Library {
    const NAME: &'static str = "the library";

    #[inline]
    fn fresh(arena: &mut [u8], table: &mut [u8]) -> Answer {
        unsafe { tulivombe_fresh(arena.as_mut_ptr(), arena.len(), table.as_mut_ptr(), table.len()) }
    }

    #[inline]
    fn get(arena: &mut [u8], table: &mut [u8], n: u32) -> Answer {
        unsafe { tulivombe_get(arena.as_mut_ptr(), arena.len(), table.as_mut_ptr(), table.len(), n) }
    }

    #[inline]
    fn give(arena: &[u8], table: &mut [u8], p: u32) -> Answer {
        unsafe { tulivombe_give(arena.as_ptr(), arena.len(), table.as_mut_ptr(), table.len(), p) }
    }

    #[inline]
    fn step(arena: &[u8], table: &[u8], p: u32, i: u32) -> Answer {
        unsafe { tulivombe_step(arena.as_ptr(), arena.len(), table.as_ptr(), table.len(), p, i) }
    }

    #[inline]
    fn read(arena: &[u8], table: &[u8], p: u32, w: u8) -> Answer {
        unsafe { tulivombe_read(arena.as_ptr(), arena.len(), table.as_ptr(), table.len(), p, w) }
    }

    #[inline]
    fn write(arena: &mut [u8], table: &[u8], p: u32, w: u8, v: u32) -> Answer {
        unsafe { tulivombe_write(arena.as_mut_ptr(), arena.len(), table.as_ptr(), table.len(), p, w, v) }
    }

    #[inline]
    fn left(arena: &[u8], table: &[u8], p: u32) -> Answer {
        unsafe { tulivombe_left(arena.as_ptr(), arena.len(), table.as_ptr(), table.len(), p) }
    }

    #[inline]
    fn copy(arena: &mut [u8], table: &[u8], p: u32, q: u32, n: u32) -> Answer {
        unsafe { tulivombe_copy(arena.as_mut_ptr(), arena.len(), table.as_ptr(), table.len(), p, q, n) }
    }

    #[inline]
    fn fill(arena: &mut [u8], table: &[u8], p: u32, v: u8, n: u32) -> Answer {
        unsafe { tulivombe_fill(arena.as_mut_ptr(), arena.len(), table.as_ptr(), table.len(), p, v, n) }
    }

    #[inline]
    fn lock(arena: &[u8], table: &mut [u8], p: u32) -> Answer {
        unsafe { tulivombe_lock(arena.as_ptr(), arena.len(), table.as_mut_ptr(), table.len(), p) }
    }

    #[inline]
    fn unlock(arena: &[u8], table: &mut [u8], p: u32) -> Answer {
        unsafe { tulivombe_unlock(arena.as_ptr(), arena.len(), table.as_mut_ptr(), table.len(), p) }
    }

    #[inline]
    fn grid(arena: &[u8], table: &[u8], p: u32, rows: u8, columns: u8, row: u8, column: u8) -> Answer {
        let (a, t) = (arena.as_ptr(), table.as_ptr());
        unsafe { tulivombe_grid(a, arena.len(), t, table.len(), p, rows, columns, row, column) }
    }

    #[inline]
    fn check(arena: &[u8], table: &[u8], h: u32, i: u32) -> Answer {
        unsafe { tulivombe_check(arena.as_ptr(), arena.len(), table.as_ptr(), table.len(), h, i) }
    }

    #[inline]
    fn show(arena: &[u8], table: &[u8], p: u32) -> Part {
        unsafe { tulivombe_show(arena.as_ptr(), arena.len(), table.as_ptr(), table.len(), p) }
    }

    #[inline]
    fn run(file: &[u8], arena: &mut [u8], table: &mut [u8], answers: &mut [u8], budget: u32) -> Ran {
        let (f, a, t, o) = (file.as_ptr(), arena.as_mut_ptr(), table.as_mut_ptr(), answers.as_mut_ptr());
        unsafe { tulivombe_run(f, file.len(), a, arena.len(), t, table.len(), o, answers.len(), budget) }
    }

    #[inline]
    fn run_panel(file: &[u8], arena: &mut [u8], table: &mut [u8], answers: &mut [u8], budget: u32) -> Ran {
        let (f, a, t, o) = (file.as_ptr(), arena.as_mut_ptr(), table.as_mut_ptr(), answers.as_mut_ptr());
        unsafe { tulivombe_run_panel(f, file.len(), a, arena.len(), t, table.len(), o, answers.len(), budget) }
    }

    #[inline]
    fn replay(arena: &mut [u8], table: &mut [u8], calls: &[u8], out: &mut [u8]) -> u32 {
        let (a, t, c, o) = (arena.as_mut_ptr(), table.as_mut_ptr(), calls.as_ptr(), out.as_mut_ptr());
        unsafe { tulivombe_replay(a, arena.len(), t, table.len(), c, calls.len(), o, out.len()) }
    }

    fn read_record(file: &[u8], at: usize) -> Place {
        let place = unsafe { tulivombe_read_record(file.as_ptr(), file.len(), at) };
        if place.number != 0 {
            assert_eq!((place.record, place.next), (FlatRecord::default(), 0), "a refused reader gives no record");
            return Err(place.number);
        }
        Ok((structured(place.record), place.next))
    }

    fn write_head(out: &mut [u8], m: u32) -> Answer {
        unsafe { tulivombe_write_head(out.as_mut_ptr(), out.len(), m) }
    }

    fn write_record(out: &mut [u8], record: Record) -> Answer {
        unsafe { tulivombe_write_record(out.as_mut_ptr(), out.len(), flat(record)) }
    }
}

/// Stores a record as C gives it, whatever its operation.
pub fn write_flat(out: &mut [u8], record: FlatRecord) -> Answer {
    unsafe { tulivombe_write_record(out.as_mut_ptr(), out.len(), record) }
}

/// Puts `v` in register `d`, whatever byte that is.
pub fn put_register(registers: &mut Registers, d: u8, v: u32) -> u32 {
    unsafe { tulivombe_put_register(registers, d, v) }
}

fn flat(record: Record) -> FlatRecord {
    let none = FlatRecord::default();
    match record {
        Record::Get { d, n } => FlatRecord { operation: 1, d, word: n, ..none },
        Record::Give { a } => FlatRecord { operation: 2, a, ..none },
        Record::Step { d, a, i } => FlatRecord { operation: 3, d, a, word: i, ..none },
        Record::Read { d, a, w } => FlatRecord { operation: 4, d, a, byte: w, ..none },
        Record::Write { a, w, v } => FlatRecord { operation: 5, a, byte: w, word: v, ..none },
        Record::Left { d, a } => FlatRecord { operation: 6, d, a, ..none },
        Record::Copy { d, a, b, n } => FlatRecord { operation: 7, d, a, b, word: n, ..none },
        Record::Fill { d, a, v, n } => FlatRecord { operation: 8, d, a, byte: v, word: n, ..none },
        Record::Lock { a } => FlatRecord { operation: 9, a, ..none },
        Record::Unlock { a } => FlatRecord { operation: 10, a, ..none },
        Record::Again { d, k } => FlatRecord { operation: 11, d, index: k, ..none },
        Record::Set { d, n } => FlatRecord { operation: 12, d, word: n, ..none },
        Record::Grid { d, a, rows, columns, row, column } => {
            FlatRecord { operation: 13, d, a, rows, columns, row, column, ..none }
        }
    }
}

/// The record of a flat one, which must have 0 in every field that its operation lacks.
fn structured(given: FlatRecord) -> Record {
    let FlatRecord { operation, d, a, b, byte, index, word, rows, columns, row, column } = given;
    let record = match operation {
        1 => Record::Get { d, n: word },
        2 => Record::Give { a },
        3 => Record::Step { d, a, i: word },
        4 => Record::Read { d, a, w: byte },
        5 => Record::Write { a, w: byte, v: word },
        6 => Record::Left { d, a },
        7 => Record::Copy { d, a, b, n: word },
        8 => Record::Fill { d, a, v: byte, n: word },
        9 => Record::Lock { a },
        10 => Record::Unlock { a },
        11 => Record::Again { d, k: index },
        12 => Record::Set { d, n: word },
        13 => Record::Grid { d, a, rows, columns, row, column },
        _ => panic!("the reader gave operation {operation}"),
    };
    assert_eq!(flat(record), given, "a field that the operation lacks is not 0");
    record
}
