//! The calls that c/plain.c has, for the tests that hold them to plain Rust and the benchmarks that compare with them.

use crate::subject::Answer;

#[rustfmt::skip]
unsafe extern "C" {
    fn plain_get(arena: *mut u8, arena_len: usize, table: *mut u8, table_len: usize, n: u32) -> Answer;
    fn plain_give(arena: *const u8, arena_len: usize, table: *mut u8, table_len: usize, p: u32) -> Answer;
    fn plain_step(arena: *const u8, arena_len: usize, table: *const u8, table_len: usize, p: u32, i: u32) -> Answer;
    fn plain_left(arena: *const u8, arena_len: usize, table: *const u8, table_len: usize, p: u32) -> Answer;
}

/// Plain C. No implementation of all that document 01 asks for, so no `Subject`.
pub struct PlainC;

impl PlainC {
    #[inline]
    pub fn get(arena: &mut [u8], table: &mut [u8], n: u32) -> Answer {
        unsafe { plain_get(arena.as_mut_ptr(), arena.len(), table.as_mut_ptr(), table.len(), n) }
    }

    #[inline]
    pub fn give(arena: &[u8], table: &mut [u8], p: u32) -> Answer {
        unsafe { plain_give(arena.as_ptr(), arena.len(), table.as_mut_ptr(), table.len(), p) }
    }

    #[inline]
    pub fn step(arena: &[u8], table: &[u8], p: u32, i: u32) -> Answer {
        unsafe { plain_step(arena.as_ptr(), arena.len(), table.as_ptr(), table.len(), p, i) }
    }

    #[inline]
    pub fn left(arena: &[u8], table: &[u8], p: u32) -> Answer {
        unsafe { plain_left(arena.as_ptr(), arena.len(), table.as_ptr(), table.len(), p) }
    }
}
