//! Documents 01 and 02 word for word: each call reads the set of blocks from the table, feeds the ledger and writes
//! the buffers back; a file is read, judged and written by the operation table as it is printed, and run by the indices
//! of its records. It shares no code with `plain`.

mod takes;

use crate::call::Call;
use crate::ledger::{damaged, first, locked_by, order_of, sought, Block, Ledger, Pair};
use crate::record::Record;
use crate::subject::{Answer, Part, Place, Ran, Subject};

pub struct Literal;

/// m, where the lengths of the buffers fit each other.
fn order(arena: &[u8], table: &[u8]) -> Option<u32> {
    (5..=16).find(|&m| arena.len() == 2usize.pow(m) && table.len() * 16 == arena.len())
}

/// The ledger that a heap stands for; of a damaged table, one with no pair.
pub fn ledger(arena: &[u8], table: &[u8], m: u32) -> Ledger {
    let mut pairs = Vec::new();
    let mut slot = if damaged(table, m) { table.len() } else { 0 };
    while slot < table.len() {
        let (order, locked) = (order_of(table[slot]), locked_by(table[slot]));
        if order != 0 {
            pairs.push(Pair { block: Block { start: 65_536 + 16 * slot as i64, order }, locked });
        }
        slot += if order == 0 { 1 } else { 2usize.pow(order - 4) };
    }
    Ledger { m, pairs, bytes: arena.to_vec() }
}

/// A call that stores into both buffers what the ledger then holds.
fn made(call: Call, arena: &mut [u8], table: &mut [u8]) -> Answer {
    let Some(m) = order(arena, table) else {
        return Answer { number: 8, value: 0 };
    };
    let mut heap = ledger(arena, table, m);
    let mut refusals = heap.refusals(call);
    refusals.push((20, damaged(table, m)));
    if let Some(number) = first(&refusals) {
        return Answer { number, value: 0 };
    }
    let answer = heap.feed(call);
    arena.copy_from_slice(&heap.bytes);
    table.copy_from_slice(&heap.table());
    answer
}

/// A call that must change nothing.
fn asked(call: Call, arena: &[u8], table: &[u8]) -> Answer {
    let (mut bytes, mut entries) = (arena.to_vec(), table.to_vec());
    let answer = made(call, &mut bytes, &mut entries);
    assert!(bytes == arena && entries == table, "{call:?} changed a buffer");
    answer
}

impl Subject for Literal {
    const NAME: &'static str = "the ledger";

    fn fresh(arena: &mut [u8], table: &mut [u8]) -> Answer {
        if order(arena, table).is_none() {
            return Answer { number: 8, value: 0 };
        }
        arena.fill(0);
        table.fill(0);
        Answer { number: 0, value: 0 }
    }

    fn get(arena: &mut [u8], table: &mut [u8], n: u32) -> Answer {
        made(Call::Get { n }, arena, table)
    }

    fn give(arena: &[u8], table: &mut [u8], p: u32) -> Answer {
        made(Call::Give { p }, &mut arena.to_vec(), table)
    }

    fn step(arena: &[u8], table: &[u8], p: u32, i: u32) -> Answer {
        asked(Call::Step { p, i }, arena, table)
    }

    fn read(arena: &[u8], table: &[u8], p: u32, w: u8) -> Answer {
        asked(Call::Read { p, w }, arena, table)
    }

    fn write(arena: &mut [u8], table: &[u8], p: u32, w: u8, v: u32) -> Answer {
        made(Call::Write { p, w, v }, arena, &mut table.to_vec())
    }

    fn left(arena: &[u8], table: &[u8], p: u32) -> Answer {
        asked(Call::Left { p }, arena, table)
    }

    fn copy(arena: &mut [u8], table: &[u8], p: u32, q: u32, n: u32) -> Answer {
        made(Call::Copy { p, q, n }, arena, &mut table.to_vec())
    }

    fn fill(arena: &mut [u8], table: &[u8], p: u32, v: u8, n: u32) -> Answer {
        made(Call::Fill { p, v, n }, arena, &mut table.to_vec())
    }

    fn lock(arena: &[u8], table: &mut [u8], p: u32) -> Answer {
        made(Call::Lock { p }, &mut arena.to_vec(), table)
    }

    fn unlock(arena: &[u8], table: &mut [u8], p: u32) -> Answer {
        made(Call::Unlock { p }, &mut arena.to_vec(), table)
    }

    fn grid(arena: &[u8], table: &[u8], p: u32, rows: u8, columns: u8, row: u8, column: u8) -> Answer {
        asked(Call::Grid { p, rows, columns, row, column }, arena, table)
    }

    fn check(arena: &[u8], table: &[u8], h: u32, i: u32) -> Answer {
        let left = Literal::left(arena, table, h);
        if left.number != 0 {
            return left;
        }
        let heap = ledger(arena, table, order(arena, table).expect("left was not refused"));
        let home = heap.home(h).expect("left was not refused");
        let inside = home.holds(sought(h) + i64::from(i as i32));
        Answer { number: 0, value: u32::from(inside) }
    }

    fn show(arena: &[u8], table: &[u8], p: u32) -> Part {
        let Answer { number, value } = Literal::left(arena, table, p);
        let offset = if number == 0 { p - 65_536 } else { 0 };
        Part { number, offset, length: value }
    }

    fn run(file: &[u8], arena: &mut [u8], table: &mut [u8], answers: &mut [u8], budget: u32) -> Ran {
        let records = match takes::judge(file) {
            Err(number) => return Ran::refused(number),
            Ok(records) => records,
        };
        if order(arena, table) != Some(u32::from(file[1])) {
            return Ran::refused(8);
        }
        // "above 4,096 counts as 4,096"; "its answer slice must hold five bytes for each, else 9"
        let budget = if budget > 4_096 { 4_096 } else { budget as usize };
        if answers.len() < 5 * budget {
            return Ran::refused(9);
        }
        Literal::fresh(arena, table);
        let mut between = Between::first();
        let mut carried_out = 0;
        while carried_out < budget && between.due < records.len() {
            let answer = between.carry_out(records[between.due], |call| made(call, arena, table));
            let place = 5 * carried_out;
            answers[place] = answer.number as u8;
            answers[place + 1..place + 5].copy_from_slice(&answer.value.to_be_bytes());
            carried_out += 1;
        }
        // "It stopped exactly when a record was still due after the budget"
        let stopped = between.due < records.len();
        Ran { number: 0, registers: between.registers, count: carried_out as u32, stopped }
    }

    fn run_panel(file: &[u8], arena: &mut [u8], table: &mut [u8], answers: &mut [u8], budget: u32) -> Ran {
        match takes::judge(file) {
            Ok(records) if records.len() > 64 => Ran::refused(26),
            _ => Literal::run(file, arena, table, answers, budget),
        }
    }

    fn replay(arena: &mut [u8], table: &mut [u8], calls: &[u8], out: &mut [u8]) -> u32 {
        let listed: Option<Vec<Call>> = calls.chunks(14).map(Call::decode).collect();
        let refusals = [
            (4, !calls.len().is_multiple_of(14)),
            (5, listed.is_none()),
            (8, order(arena, table).is_none()),
            (9, out.len() < 5 * (calls.len() / 14)),
        ];
        if let Some((number, _)) = refusals.into_iter().find(|(_, applies)| *applies) {
            return number;
        }
        Literal::fresh(arena, table);
        for (index, call) in listed.into_iter().flatten().enumerate() {
            let answer = made(call, arena, table);
            out[5 * index] = answer.number as u8;
            out[5 * index + 1..5 * index + 5].copy_from_slice(&answer.value.to_be_bytes());
        }
        0
    }

    fn read_record(file: &[u8], at: usize) -> Place {
        takes::read(file, at)
    }

    fn write_head(out: &mut [u8], m: u32) -> Answer {
        takes::write_head(out, m)
    }

    fn write_record(out: &mut [u8], record: Record) -> Answer {
        takes::write_record(out, record)
    }
}

/// A run between two records: the index of the one that is due, and the registers.
pub struct Between {
    pub due: usize,
    registers: [u32; 16],
}

impl Between {
    /// "Sixteen 32-bit registers start at 0."
    pub fn first() -> Between {
        Between { due: 0, registers: [0; 16] }
    }

    /// Carries out the record that is due. Where it makes a call, `make` answers that.
    pub fn carry_out(&mut self, record: Record, make: impl FnOnce(Call) -> Answer) -> Answer {
        let answer = match call_of(record, &self.registers) {
            Some(call) => make(call),
            None => Answer { number: 0, value: self.value(record) },
        };
        // "goes to record k", if d is not 0: that is asked before the value is put in d
        self.due = match record {
            Record::Again { d, k } if self.registers[usize::from(d)] != 0 => usize::from(k),
            _ => self.due + 1,
        };
        if let (0, Some(d)) = (answer.number, target(record)) {
            self.registers[usize::from(d)] = answer.value;
        }
        answer
    }

    /// The value of a record that makes no call. "If d is not 0 it takes one from d [..]; its value is d afterwards."
    fn value(&self, record: Record) -> u32 {
        match record {
            Record::Again { d, .. } if self.registers[usize::from(d)] != 0 => self.registers[usize::from(d)] - 1,
            Record::Again { .. } => 0,
            Record::Set { n, .. } => n,
            _ => panic!("it makes a call: {record:?}"),
        }
    }
}

/// The records of a file, up to the first bad one.
pub fn records(file: &[u8]) -> Vec<Record> {
    takes::records(file).0
}

/// Carries out a file's records, up to the first bad one, on a fresh ledger of order m, and shows each call with the
/// ledger before it and its number. After a few hundred records nothing new is met.
pub fn each_call(file: &[u8], m: u32, mut met: impl FnMut(&Ledger, Call, u32)) {
    let (records, mut heap, mut between) = (records(file), Ledger::new(m), Between::first());
    for _ in 0..300 {
        let Some(&record) = records.get(between.due) else { return };
        between.carry_out(record, |call| {
            let before = heap.clone();
            let answer = heap.feed(call);
            met(&before, call, answer.number);
            answer
        });
    }
}

/// The call that a record makes, if it makes one: "with the values in a and b (p, q)".
fn call_of(record: Record, registers: &[u32; 16]) -> Option<Call> {
    let held = |r: u8| registers[usize::from(r)];
    Some(match record {
        Record::Get { n, .. } => Call::Get { n },
        Record::Give { a } => Call::Give { p: held(a) },
        Record::Step { a, i, .. } => Call::Step { p: held(a), i },
        Record::Read { a, w, .. } => Call::Read { p: held(a), w },
        Record::Write { a, w, v } => Call::Write { p: held(a), w, v },
        Record::Left { a, .. } => Call::Left { p: held(a) },
        Record::Copy { a, b, n, .. } => Call::Copy { p: held(a), q: held(b), n },
        Record::Fill { a, v, n, .. } => Call::Fill { p: held(a), v, n },
        Record::Lock { a } => Call::Lock { p: held(a) },
        Record::Unlock { a } => Call::Unlock { p: held(a) },
        Record::Grid { a, rows, columns, row, column, .. } => Call::Grid { p: held(a), rows, columns, row, column },
        Record::Again { .. } | Record::Set { .. } => return None,
    })
}

/// The register that takes a record's value, "if not refused".
fn target(record: Record) -> Option<u8> {
    match record {
        Record::Get { d, .. } | Record::Step { d, .. } | Record::Read { d, .. } | Record::Left { d, .. } => Some(d),
        Record::Copy { d, .. } | Record::Fill { d, .. } | Record::Again { d, .. } | Record::Set { d, .. } => Some(d),
        Record::Grid { d, .. } => Some(d),
        Record::Give { .. } | Record::Write { .. } | Record::Lock { .. } | Record::Unlock { .. } => None,
    }
}
