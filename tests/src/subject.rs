//! What the tests and benchmarks ask of an implementation of documents 01 and 02.

use crate::plain::{heap, replay, runner, takes, Refusal};
use crate::record::Record;

/// A refusal's number, 0 for none, and the value.
#[derive(Clone, Copy, Debug, PartialEq, Eq)]
#[repr(C)]
pub struct Answer {
    pub number: u32,
    pub value: u32,
}

impl From<Result<u32, Refusal>> for Answer {
    fn from(outcome: Result<u32, Refusal>) -> Answer {
        match outcome {
            Ok(value) => Answer { number: 0, value },
            Err(refusal) => Answer { number: refusal.number(), value: 0 },
        }
    }
}

impl From<Result<usize, Refusal>> for Answer {
    fn from(outcome: Result<usize, Refusal>) -> Answer {
        outcome.map(|value| value as u32).into()
    }
}

/// The part of the arena that show hands back, by its offset; refused, it is empty.
#[derive(Clone, Copy, Debug, PartialEq, Eq)]
#[repr(C)]
pub struct Part {
    pub number: u32,
    pub offset: u32,
    pub length: u32,
}

/// What a run returns.
#[derive(Clone, Copy, Debug, PartialEq, Eq)]
#[repr(C)]
pub struct Ran {
    pub number: u32,
    pub registers: [u32; 16],
    pub count: u32,
    pub stopped: bool,
}

impl Ran {
    pub fn refused(number: u32) -> Ran {
        Ran { number, registers: [0; 16], count: 0, stopped: false }
    }
}

impl From<Result<runner::Finished, Refusal>> for Ran {
    fn from(outcome: Result<runner::Finished, Refusal>) -> Ran {
        match outcome {
            Ok(runner::Finished { registers, count, stopped }) => {
                Ran { number: 0, registers, count: count as u32, stopped }
            }
            Err(refusal) => Ran::refused(refusal.number()),
        }
    }
}

/// Who runs a take.
#[derive(Clone, Copy, Debug, PartialEq, Eq)]
pub enum Caller {
    Upload,
    Panel,
}

impl Caller {
    /// The subject's run for this caller.
    pub fn run<S: Subject>(
        self,
        file: &[u8],
        arena: &mut [u8],
        table: &mut [u8],
        answers: &mut [u8],
        budget: u32,
    ) -> Ran {
        match self {
            Caller::Upload => S::run(file, arena, table, answers, budget),
            Caller::Panel => S::run_panel(file, arena, table, answers, budget),
        }
    }
}

/// What the reader gives: the record and the next place, or a refusal's number.
pub type Place = Result<(Record, usize), u32>;

pub trait Subject {
    const NAME: &'static str;
    fn fresh(arena: &mut [u8], table: &mut [u8]) -> Answer;
    fn get(arena: &mut [u8], table: &mut [u8], n: u32) -> Answer;
    fn give(arena: &[u8], table: &mut [u8], p: u32) -> Answer;
    fn step(arena: &[u8], table: &[u8], p: u32, i: u32) -> Answer;
    fn read(arena: &[u8], table: &[u8], p: u32, w: u8) -> Answer;
    fn write(arena: &mut [u8], table: &[u8], p: u32, w: u8, v: u32) -> Answer;
    fn left(arena: &[u8], table: &[u8], p: u32) -> Answer;
    fn copy(arena: &mut [u8], table: &[u8], p: u32, q: u32, n: u32) -> Answer;
    fn fill(arena: &mut [u8], table: &[u8], p: u32, v: u8, n: u32) -> Answer;
    fn lock(arena: &[u8], table: &mut [u8], p: u32) -> Answer;
    fn unlock(arena: &[u8], table: &mut [u8], p: u32) -> Answer;
    fn grid(arena: &[u8], table: &[u8], p: u32, rows: u8, columns: u8, row: u8, column: u8) -> Answer;
    fn check(arena: &[u8], table: &[u8], h: u32, i: u32) -> Answer;
    fn show(arena: &[u8], table: &[u8], p: u32) -> Part;
    fn run(file: &[u8], arena: &mut [u8], table: &mut [u8], answers: &mut [u8], budget: u32) -> Ran;
    fn run_panel(file: &[u8], arena: &mut [u8], table: &mut [u8], answers: &mut [u8], budget: u32) -> Ran;
    fn replay(arena: &mut [u8], table: &mut [u8], calls: &[u8], out: &mut [u8]) -> u32;
    fn read_record(file: &[u8], at: usize) -> Place;
    fn write_head(out: &mut [u8], m: u32) -> Answer;
    fn write_record(out: &mut [u8], record: Record) -> Answer;
}

/// The plain Rust implementation. No function is inlined into its caller, as none of a linked library is.
pub struct Plain;

impl Subject for Plain {
    const NAME: &'static str = "plain Rust";

    #[inline(never)]
    fn fresh(arena: &mut [u8], table: &mut [u8]) -> Answer {
        heap::fresh(arena, table).into()
    }

    #[inline(never)]
    fn get(arena: &mut [u8], table: &mut [u8], n: u32) -> Answer {
        heap::get::<false>(arena, table, n).into()
    }

    #[inline(never)]
    fn give(arena: &[u8], table: &mut [u8], p: u32) -> Answer {
        heap::give::<false>(arena, table, p).into()
    }

    #[inline(never)]
    fn step(arena: &[u8], table: &[u8], p: u32, i: u32) -> Answer {
        heap::step::<false>(arena, table, p, i).into()
    }

    #[inline(never)]
    fn read(arena: &[u8], table: &[u8], p: u32, w: u8) -> Answer {
        heap::read::<false>(arena, table, p, w).into()
    }

    #[inline(never)]
    fn write(arena: &mut [u8], table: &[u8], p: u32, w: u8, v: u32) -> Answer {
        heap::write::<false>(arena, table, p, w, v).into()
    }

    #[inline(never)]
    fn left(arena: &[u8], table: &[u8], p: u32) -> Answer {
        heap::left::<false>(arena, table, p).into()
    }

    #[inline(never)]
    fn copy(arena: &mut [u8], table: &[u8], p: u32, q: u32, n: u32) -> Answer {
        heap::copy::<false>(arena, table, p, q, n).into()
    }

    #[inline(never)]
    fn fill(arena: &mut [u8], table: &[u8], p: u32, v: u8, n: u32) -> Answer {
        heap::fill::<false>(arena, table, p, v, n).into()
    }

    #[inline(never)]
    fn lock(arena: &[u8], table: &mut [u8], p: u32) -> Answer {
        heap::lock::<false>(arena, table, p).into()
    }

    #[inline(never)]
    fn unlock(arena: &[u8], table: &mut [u8], p: u32) -> Answer {
        heap::unlock::<false>(arena, table, p).into()
    }

    #[inline(never)]
    fn grid(arena: &[u8], table: &[u8], p: u32, rows: u8, columns: u8, row: u8, column: u8) -> Answer {
        heap::grid::<false>(arena, table, p, rows, columns, row, column).into()
    }

    #[inline(never)]
    fn check(arena: &[u8], table: &[u8], h: u32, i: u32) -> Answer {
        heap::check(arena, table, h, i).into()
    }

    #[inline(never)]
    fn show(arena: &[u8], table: &[u8], p: u32) -> Part {
        let part = heap::show(arena, table, p);
        if part.is_empty() {
            let number = Plain::left(arena, table, p).number;
            return Part { number, offset: 0, length: 0 };
        }
        let offset = part.as_ptr() as usize - arena.as_ptr() as usize;
        Part { number: 0, offset: offset as u32, length: part.len() as u32 }
    }

    #[inline(never)]
    fn run(file: &[u8], arena: &mut [u8], table: &mut [u8], answers: &mut [u8], budget: u32) -> Ran {
        runner::run(file, arena, table, answers, budget).into()
    }

    #[inline(never)]
    fn run_panel(file: &[u8], arena: &mut [u8], table: &mut [u8], answers: &mut [u8], budget: u32) -> Ran {
        runner::run_panel(file, arena, table, answers, budget).into()
    }

    #[inline(never)]
    fn replay(arena: &mut [u8], table: &mut [u8], calls: &[u8], out: &mut [u8]) -> u32 {
        replay::replay(arena, table, calls, out).map_or_else(Refusal::number, |()| 0)
    }

    #[inline(never)]
    fn read_record(file: &[u8], at: usize) -> Place {
        takes::read(file, at).map_err(Refusal::number)
    }

    #[inline(never)]
    fn write_head(out: &mut [u8], m: u32) -> Answer {
        takes::write_head(out, m).into()
    }

    #[inline(never)]
    fn write_record(out: &mut [u8], record: Record) -> Answer {
        takes::write(out, record).into()
    }
}
