//! A list of calls as bytes, 14 each, replayed on a fresh heap.

use super::heap;
use super::runner::ANSWER;
use super::Refusal::{self, *};

/// The bytes of a call.
pub const CALL: usize = 14;

/// Makes the calls and stores their answers (refused 4, 5, 8, 9).
pub fn replay(arena: &mut [u8], table: &mut [u8], calls: &[u8], out: &mut [u8]) -> Result<(), Refusal> {
    if !calls.len().is_multiple_of(CALL) {
        return Err(RecordLength);
    }
    if calls.chunks_exact(CALL).any(|call| !matches!(call[0], 1..=10 | 13)) {
        return Err(Operation);
    }
    if !heap::lengths_fit(arena, table) {
        return Err(Lengths);
    }
    if out.len() < calls.len() / CALL * ANSWER {
        return Err(Room);
    }
    arena.fill(0);
    table.fill(0);
    for (call, answer) in calls.chunks_exact(CALL).zip(out.chunks_exact_mut(ANSWER)) {
        let (number, value) = match make(call, arena, table) {
            Ok(value) => (0, value),
            Err(refusal) => (refusal.number() as u8, 0),
        };
        answer[0] = number;
        answer[1..].copy_from_slice(&value.to_be_bytes());
    }
    Ok(())
}

/// One call on a heap that is known to be sound: operation, byte x, numbers a, b, c. A grid takes b's bytes one by one.
fn make(call: &[u8], arena: &mut [u8], table: &mut [u8]) -> heap::Outcome {
    let word = |at: usize| u32::from_be_bytes([call[at], call[at + 1], call[at + 2], call[at + 3]]);
    let (x, a, b, c) = (call[1], word(2), word(6), word(10));
    match call[0] {
        1 => heap::get::<true>(arena, table, a),
        2 => heap::give::<true>(arena, table, a),
        3 => heap::step::<true>(arena, table, a, b),
        4 => heap::read::<true>(arena, table, a, x),
        5 => heap::write::<true>(arena, table, a, x, b),
        6 => heap::left::<true>(arena, table, a),
        7 => heap::copy::<true>(arena, table, a, b, c),
        8 => heap::fill::<true>(arena, table, a, x, c),
        9 => heap::lock::<true>(arena, table, a),
        10 => heap::unlock::<true>(arena, table, a),
        _ => heap::grid::<true>(arena, table, a, call[6], call[7], call[8], call[9]),
    }
}
