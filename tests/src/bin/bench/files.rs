//! Takes to run.

use crate::tables::Heap;
use tulivombe_tests::call::Call;
use tulivombe_tests::plain::takes;
use tulivombe_tests::random::{append, Rng};
use tulivombe_tests::record::Record;
use tulivombe_tests::subject::Plain;

/// A file of `records` records at most, the first ones and then `repeated` in turn.
pub fn take(m: u32, first: &[Record], repeated: &[Record], records: usize) -> Vec<u8> {
    let mut file = vec![takes::VERSION, m as u8];
    for &record in first.iter().chain(repeated.iter().cycle()).take(records) {
        if file.len() + 9 > takes::LONGEST {
            break;
        }
        append(&mut file, record);
    }
    file
}

pub fn records_of(file: &[u8]) -> usize {
    takes::judge(file).expect("the file is accepted").1
}

/// Steps, writes and reads through one block of half the arena.
pub fn mixed_take(m: u32, records: usize) -> Vec<u8> {
    let size = 1 << (m - 1);
    let walk = [
        Record::Step { d: 1, a: 0, i: size / 2 },
        Record::Write { a: 1, w: 4, v: 0xDECA_FBAD },
        Record::Read { d: 2, a: 1, w: 4 },
        Record::Step { d: 3, a: 1, i: 0xFFFF_FFF9 },
        Record::Write { a: 3, w: 1, v: 77 },
        Record::Read { d: 4, a: 3, w: 2 },
    ];
    take(m, &[Record::Get { d: 0, n: size }], &walk, records)
}

/// The hits of a roll.
const HITS: usize = 16;

/// Rolls of sixteen hits through one block, a write and a step for each hit: written out, and by again.
pub fn rolls(m: u32, rolls: usize) -> [Vec<u8>; 2] {
    let (block, hit, left) = (0, 1, 2);
    let first = [Record::Get { d: block, n: HITS as u32 }];
    let start = Record::Step { d: hit, a: block, i: 0 };
    let hits = [Record::Write { a: hit, w: 1, v: 127 }, Record::Step { d: hit, a: hit, i: 1 }];
    let written: Vec<Record> = [start].into_iter().chain(hits.into_iter().cycle().take(2 * HITS)).collect();
    let mut repeated = first.to_vec();
    for _ in 0..rolls {
        repeated.extend([start, Record::Set { d: left, n: HITS as u32 - 1 }]);
        let k = repeated.len() as u16;
        repeated.extend(hits.into_iter().chain([Record::Again { d: left, k }]));
    }
    [take(m, &first, &written, 1 + rolls * written.len()), take(m, &repeated, &[], repeated.len())]
}

/// Gets and gives of many sizes with up to a dozen blocks live, for which there is always room.
pub fn churning_take(m: u32) -> Vec<u8> {
    let mut file = vec![takes::VERSION, m as u8];
    let mut live = [false; 12];
    let registers = 12.min(1 << (m - 4));
    let rng = &mut Rng::new(3);
    while file.len() + 9 <= takes::LONGEST {
        let register = rng.below(registers);
        let slot = &mut live[register as usize];
        let order = rng.within(4, (m - 4).max(4));
        let n = 1 + rng.below(1 << order);
        let record = if *slot { Record::Give { a: register as u8 } } else { Record::Get { d: register as u8, n } };
        append(&mut file, record);
        *slot = !*slot;
    }
    file
}

/// Keeps the first block that the records get.
const KEPT: u8 = 0;
/// Takes pointers that were written into that block.
const MADE: u8 = 15;

/// Records that make the gets and gives of a list. A register holds what a get gave until fourteen later gets were
/// accepted; after that the number is written into the first block and read from there.
pub fn records(m: u32, calls: &[Call]) -> Vec<Record> {
    let mut heap = Heap::fresh(m);
    let mut held = [0; MADE as usize];
    let mut d = KEPT;
    let mut records = Vec::new();
    for &call in calls {
        let answer = call.make::<Plain>(&mut heap.arena, &mut heap.table);
        match call {
            Call::Get { n } => records.push(Record::Get { d, n }),
            Call::Give { p } => records.extend(giving(p, &held)),
            _ => unreachable!("the list has gets and gives alone"),
        }
        if let (Call::Get { .. }, 0) = (call, answer.number) {
            held[usize::from(d)] = answer.value;
            d = d % (MADE - 1) + 1;
        }
    }
    records
}

fn giving(p: u32, held: &[u32]) -> Vec<Record> {
    match held.iter().position(|&pointer| pointer == p) {
        Some(a) => vec![Record::Give { a: a as u8 }],
        None => vec![
            Record::Write { a: KEPT, w: 4, v: p },
            Record::Read { d: MADE, a: KEPT, w: 4 },
            Record::Give { a: MADE },
        ],
    }
}
