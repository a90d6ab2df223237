//! Running a take, and what `takerun` prints.

use super::heap;
use super::takes::{self, REGISTERS};
use super::Refusal::{self, *};
use crate::record::Record;
use std::fmt::Write;

/// What an accepted run returns besides its buffers.
#[derive(Clone, Copy, Debug, PartialEq, Eq)]
pub struct Finished {
    pub registers: [u32; REGISTERS],
    /// How many records were carried out.
    pub count: usize,
    /// Whether one was still due after the budget.
    pub stopped: bool,
}

/// How many records a run carries out at most, whatever its budget.
pub const MOST_STEPS: usize = 4_096;

/// As many records as a file can have: each takes three bytes or more.
const PLACES: usize = takes::LONGEST / 3;

/// How many records the front panel's screen can list.
pub const SCREENFUL: usize = 64;

/// The bytes of an answer: number, then value big-endian.
pub const ANSWER: usize = 5;

/// Judges the file and the buffers (1 to 9, 29), makes the heap fresh and carries out the records that are due.
pub fn run(
    file: &[u8],
    arena: &mut [u8],
    table: &mut [u8],
    answers: &mut [u8],
    budget: u32,
) -> Result<Finished, Refusal> {
    run_up_to(usize::MAX, file, arena, table, answers, budget)
}

/// The front panel's run: 26 after 29 and before 8.
pub fn run_panel(
    file: &[u8],
    arena: &mut [u8],
    table: &mut [u8],
    answers: &mut [u8],
    budget: u32,
) -> Result<Finished, Refusal> {
    run_up_to(SCREENFUL, file, arena, table, answers, budget)
}

fn run_up_to(
    listed: usize,
    file: &[u8],
    arena: &mut [u8],
    table: &mut [u8],
    answers: &mut [u8],
    budget: u32,
) -> Result<Finished, Refusal> {
    let mut places = [0; PLACES];
    let (m, records) = takes::judge_each(file, |index, at| places[index] = at as u16)?;
    if records > listed {
        return Err(TooManyRecords);
    }
    if arena.len() != 1 << m || table.len() != arena.len() / 16 {
        return Err(Lengths);
    }
    let most = MOST_STEPS.min(budget as usize);
    let answers = answers.get_mut(..ANSWER * most).ok_or(Room)?;
    arena.fill(0);
    table.fill(0);
    let mut registers = [0; REGISTERS];
    let (mut due, mut count) = (0, 0);
    for answer in answers.chunks_exact_mut(ANSWER) {
        if due == records {
            break;
        }
        let (record, _) = takes::read(file, usize::from(places[due]))?;
        due = due_after(record, due, &registers);
        let (number, value) = match carry_out(record, &mut registers, arena, table) {
            Ok(value) => (0, value),
            Err(refusal) => (refusal.number() as u8, 0),
        };
        answer[0] = number;
        answer[1..].copy_from_slice(&value.to_be_bytes());
        count += 1;
    }
    Ok(Finished { registers, count, stopped: due < records })
}

/// The index of the record that is due after this one, by the registers before it.
fn due_after(record: Record, index: usize, registers: &[u32; REGISTERS]) -> usize {
    match record {
        Record::Again { d, k } if registers[usize::from(d)] != 0 => usize::from(k),
        _ => index + 1,
    }
}

/// One record on a heap that is known to be sound.
fn carry_out(record: Record, registers: &mut [u32; REGISTERS], arena: &mut [u8], table: &mut [u8]) -> heap::Outcome {
    let held = |r: u8| registers[usize::from(r)];
    let (d, value) = match record {
        Record::Get { d, n } => (d, heap::get::<true>(arena, table, n)?),
        Record::Give { a } => return heap::give::<true>(arena, table, held(a)),
        Record::Step { d, a, i } => (d, heap::step::<true>(arena, table, held(a), i)?),
        Record::Read { d, a, w } => (d, heap::read::<true>(arena, table, held(a), w)?),
        Record::Write { a, w, v } => return heap::write::<true>(arena, table, held(a), w, v),
        Record::Left { d, a } => (d, heap::left::<true>(arena, table, held(a))?),
        Record::Copy { d, a, b, n } => (d, heap::copy::<true>(arena, table, held(a), held(b), n)?),
        Record::Fill { d, a, v, n } => (d, heap::fill::<true>(arena, table, held(a), v, n)?),
        Record::Lock { a } => return heap::lock::<true>(arena, table, held(a)),
        Record::Unlock { a } => return heap::unlock::<true>(arena, table, held(a)),
        Record::Again { d, .. } => (d, held(d).saturating_sub(1)),
        Record::Set { d, n } => (d, n),
        Record::Grid { d, a, rows, columns, row, column } => {
            (d, heap::grid::<true>(arena, table, held(a), rows, columns, row, column)?)
        }
    };
    registers[usize::from(d)] = value;
    Ok(value)
}

/// What `takerun` prints for its standard input.
pub fn takerun(input: &[u8]) -> String {
    match takes::judge(input) {
        Err(refusal) => format!("refused {}\n", refusal.number()),
        Ok((m, _)) => {
            let mut arena = vec![0; 1 << m];
            let mut table = vec![0; arena.len() / 16];
            let mut answers = vec![0; ANSWER * MOST_STEPS];
            let ran = run(input, &mut arena, &mut table, &mut answers, MOST_STEPS as u32);
            let Finished { count, stopped, .. } = ran.expect("the buffers fit an accepted file");
            printed(arena.len(), &answers[..ANSWER * count], stopped)
        }
    }
}

/// The lines for an accepted file, from the arena's length and the answers of the records carried out.
fn printed(arena_len: usize, answers: &[u8], stopped: bool) -> String {
    let mut text = format!("heap {arena_len}\n");
    let records = answers.chunks_exact(ANSWER);
    let count = records.len();
    for (index, answer) in records.enumerate() {
        let value = u32::from_be_bytes([answer[1], answer[2], answer[3], answer[4]]);
        writeln!(text, "{index} {} {value}", answer[0]).expect("a string takes any text");
    }
    writeln!(text, "{} {count}", if stopped { "stopped" } else { "end" }).expect("a string takes any text");
    text
}
