//! Request 7 of document 02: write, fill, copy into and give on a locked block are refused 28, judged last; all else is
//! as before. The lock is the top bit of the block's entries.

use std::collections::BTreeSet;
use tulivombe_tests::call::Call;
use tulivombe_tests::ledger::Ledger;
use tulivombe_tests::literal::{each_call, ledger, Between, Literal};
use tulivombe_tests::plain::heap::{BASE, LOCK, MARK};
use tulivombe_tests::plain::takes::VERSION;
use tulivombe_tests::random::{self, append, times, Rng};
use tulivombe_tests::record::Record;
use tulivombe_tests::subject::{Answer, Caller, Part, Plain, Subject};

const DONE: Answer = Answer { number: 0, value: 0 };

fn refused(number: u32) -> Answer {
    Answer { number, value: 0 }
}

/// A heap of 2^m bytes: a block of the lower half, one of 16 bytes after it, and what is left, free.
#[derive(Clone)]
struct Heap {
    arena: Vec<u8>,
    table: Vec<u8>,
    half: u32,
}

impl Heap {
    fn new<S: Subject>(m: u32) -> Heap {
        let (mut arena, mut table) = (vec![0x5A; 1 << m], vec![0x5A; 1 << (m - 4)]);
        let half = 1 << (m - 1);
        S::fresh(&mut arena, &mut table);
        assert_eq!(S::get(&mut arena, &mut table, half), Answer { number: 0, value: BASE });
        assert_eq!(S::get(&mut arena, &mut table, 16), Answer { number: 0, value: BASE + half });
        for (at, byte) in arena.iter_mut().enumerate() {
            *byte = (at % 251) as u8;
        }
        Heap { arena, table, half }
    }

    /// The same heap, its first block being locked by an address of it.
    fn locked<S: Subject>(m: u32) -> Heap {
        let mut heap = Heap::new::<S>(m);
        assert_eq!(S::lock(&heap.arena, &mut heap.table, BASE + heap.half / 2), DONE, "{}", S::NAME);
        heap
    }

    /// The table, with these bits in the first block's entries.
    fn entries(&self, bits: u8) -> Vec<u8> {
        let (order, slots) = (self.half.trailing_zeros() as u8, self.half as usize / 16);
        let mut table = vec![0; self.table.len()];
        table[..slots].fill(order | bits);
        table[slots] = 4;
        table
    }

    /// The first block's start, its second byte, its middle and its last byte.
    fn addresses(&self) -> [u32; 4] {
        [BASE, BASE + 1, BASE + self.half / 2, BASE + self.half - 1]
    }

    /// The call's answer, on buffers that it must leave as they are.
    fn asked<S: Subject>(&self, call: Call) -> Answer {
        let (mut arena, mut table) = (self.arena.clone(), self.table.clone());
        let answer = call.make::<S>(&mut arena, &mut table);
        assert!(arena == self.arena && table == self.table, "{}: {call:?} changed a buffer", S::NAME);
        answer
    }

    fn refuses<S: Subject>(&self, call: Call, number: u32) {
        assert_eq!(self.asked::<S>(call), refused(number), "{}: {call:?}, {} bytes", S::NAME, self.arena.len());
    }
}

/// Any address locks the whole block and unlocks it; once more changes nothing, nor does another block's lock.
fn locks<S: Subject>(m: u32) {
    let mut heap = Heap::new::<S>(m);
    let arena = heap.arena.clone();
    for p in heap.addresses() {
        for (bits, lock) in [(LOCK, true), (LOCK, true), (0, false), (0, false)] {
            let call = if lock { Call::Lock { p } } else { Call::Unlock { p } };
            assert_eq!(call.make::<S>(&mut heap.arena, &mut heap.table), DONE, "{}: {call:?}", S::NAME);
            assert_eq!(heap.table, heap.entries(bits), "{}: {call:?}, m = {m}", S::NAME);
        }
    }
    let other = BASE + heap.half + 7;
    assert_eq!(S::lock(&heap.arena, &mut heap.table, other), DONE);
    let mut expected = heap.entries(0);
    expected[heap.half as usize / 16] = LOCK | 4;
    assert_eq!(heap.table, expected, "{}: m = {m}", S::NAME);
    assert!(heap.arena == arena, "{}: a lock changed the arena", S::NAME);
}

/// Stores and gives of a locked block, also those that would store no byte.
fn refused_by_the_lock<S: Subject>(m: u32) {
    let heap = Heap::locked::<S>(m);
    let other = BASE + heap.half;
    heap.refuses::<S>(Call::Give { p: BASE }, 28);
    for p in heap.addresses() {
        let left = BASE + heap.half - p;
        for w in [1, 2, 4].into_iter().filter(|&w| u32::from(w) <= left) {
            heap.refuses::<S>(Call::Write { p, w, v: 9 }, 28);
        }
        for n in [0, 1, left, left + 1, u32::MAX] {
            heap.refuses::<S>(Call::Fill { p, v: 9, n }, 28);
            for q in [p, BASE, BASE + heap.half - 1, other, other + 15] {
                heap.refuses::<S>(Call::Copy { p, q, n }, 28);
            }
        }
    }
}

/// All other numbers come first.
fn judged_before<S: Subject>(m: u32) {
    let mut heap = Heap::locked::<S>(m);
    let (last, end) = (BASE + heap.half - 1, BASE + (1 << m));
    for p in [BASE + 1, BASE + heap.half / 2, last] {
        heap.refuses::<S>(Call::Give { p }, 23);
    }
    for (p, w) in [(last, 2), (last, 4), (last - 2, 4)] {
        heap.refuses::<S>(Call::Write { p, w, v: 9 }, 25);
    }
    for p in [BASE, last] {
        heap.refuses::<S>(Call::Write { p, w: 3, v: 256 }, 11);
        heap.refuses::<S>(Call::Write { p, w: 1, v: 256 }, 12);
        heap.refuses::<S>(Call::Copy { p, q: end, n: 0 }, 27);
        heap.refuses::<S>(Call::Copy { p, q: (BASE - 8) | MARK, n: 0 }, 13);
    }
    if m > 5 {
        heap.refuses::<S>(Call::Copy { p: BASE, q: end - 1, n: 0 }, 22);
    }
    // both are sought in the locked block
    for p in [BASE + 16, BASE - 8].map(|address| address | MARK) {
        heap.refuses::<S>(Call::Give { p }, 13);
        heap.refuses::<S>(Call::Write { p, w: 1, v: 9 }, 13);
        heap.refuses::<S>(Call::Fill { p, v: 9, n: 1 }, 13);
        heap.refuses::<S>(Call::Copy { p, q: BASE, n: 1 }, 13);
    }
    *heap.table.last_mut().expect("a table has slots") = 3;
    heap.refuses::<S>(Call::Give { p: BASE }, 20);
    heap.refuses::<S>(Call::Write { p: BASE, w: 1, v: 9 }, 20);
    heap.refuses::<S>(Call::Fill { p: BASE, v: 9, n: 0 }, 20);
    heap.refuses::<S>(Call::Copy { p: BASE, q: BASE, n: 0 }, 20);
    heap.table.pop();
    heap.refuses::<S>(Call::Give { p: BASE }, 8);
}

/// What can refuse lock and unlock, on a block that is locked or not.
fn refused_locks<S: Subject>(m: u32) {
    for mut heap in [Heap::new::<S>(m), Heap::locked::<S>(m)] {
        let end = BASE + (1 << m);
        let both = |heap: &Heap, p: u32, number: u32| {
            heap.refuses::<S>(Call::Lock { p }, number);
            heap.refuses::<S>(Call::Unlock { p }, number);
        };
        for p in [0, BASE - 1, end, MARK - 1, MARK, BASE | MARK] {
            both(&heap, p, 27);
        }
        // each is sought in one of the blocks
        for address in [BASE - 8, BASE - 1, BASE + 16, BASE + heap.half] {
            both(&heap, address | MARK, 13);
        }
        if m > 5 {
            for p in [BASE + heap.half + 16, end - 1, end | MARK] {
                both(&heap, p, 22);
            }
        }
        heap.table[0] ^= 1;
        for p in [0, BASE, BASE + heap.half, end - 1] {
            both(&heap, p, 20);
            both(&heap, p | MARK, 20);
        }
        heap.table.pop();
        both(&heap, BASE, 8);
        both(&heap, BASE | MARK, 8);
    }
}

/// Reads, steps, lefts, grids, check and show give on a locked block what they give on the same one unlocked.
fn as_before<S: Subject>(m: u32) {
    let (heap, unlocked) = (Heap::locked::<S>(m), Heap::new::<S>(m));
    for p in heap.addresses() {
        let steps = [0, 1, heap.half, heap.half + 7, heap.half + 8, 8u32.wrapping_neg(), 9u32.wrapping_neg()];
        let calls = steps.map(|i| Call::Step { p, i }).into_iter();
        let calls = calls.chain([1, 2, 4].map(|w| Call::Read { p, w })).chain([Call::Left { p }]);
        let grids = [1, 2, 16].map(|columns| Call::Grid { p, rows: 1, columns, row: 0, column: columns - 1 });
        let calls = calls.chain(grids);
        calls.for_each(|call| assert_eq!(heap.asked::<S>(call), unlocked.asked::<S>(call), "{}: {call:?}", S::NAME));
        for i in steps {
            let inside = i64::from(p) + i64::from(i as i32) - i64::from(BASE);
            let value = u32::from((0..i64::from(heap.half)).contains(&inside));
            let answer = S::check(&heap.arena, &heap.table, p, i);
            assert_eq!(answer, Answer { number: 0, value }, "{}: check {p} {i}", S::NAME);
        }
        let part = Part { number: 0, offset: p - BASE, length: BASE + heap.half - p };
        assert_eq!(S::show(&heap.arena, &heap.table, p), part, "{}: show {p}", S::NAME);
    }
    for address in [BASE - 8, BASE - 1, BASE + heap.half, BASE + heap.half + 7] {
        let call = Call::Step { p: address | MARK, i: BASE.wrapping_sub(address) };
        assert_eq!(heap.asked::<S>(call), Answer { number: 0, value: BASE }, "{}: {call:?}", S::NAME);
    }
}

/// A copy out of a locked block, and stores into the block beside it.
fn beside_it<S: Subject>(m: u32) {
    let Heap { mut arena, table, half } = Heap::locked::<S>(m);
    let (other, at) = (BASE + half, half as usize);
    let mut expected = arena.clone();
    assert_eq!(S::copy(&mut arena, &table, other, BASE + 3, 8), Answer { number: 0, value: 8 }, "{}", S::NAME);
    expected.copy_within(3..11, at);
    assert_eq!(S::fill(&mut arena, &table, other + 8, 0xC3, 2), Answer { number: 0, value: 2 }, "{}", S::NAME);
    expected[at + 8..at + 10].fill(0xC3);
    assert_eq!(S::write(&mut arena, &table, other + 12, 2, 0x0102), DONE, "{}", S::NAME);
    expected[at + 12..at + 14].copy_from_slice(&[1, 2]);
    assert!(arena == expected, "{}: the arena, m = {m}", S::NAME);
}

/// Once it is unlocked a block takes stores and is given back: its entries become 0, and what is got there is unlocked.
fn unlocked_again<S: Subject>(m: u32) {
    let mut heap = Heap::locked::<S>(m);
    let last = BASE + heap.half - 1;
    assert_eq!(S::unlock(&heap.arena, &mut heap.table, last), DONE);
    assert_eq!(S::write(&mut heap.arena, &heap.table, last, 1, 9), DONE, "{}", S::NAME);
    assert_eq!(heap.arena[heap.half as usize - 1], 9);
    assert_eq!(S::fill(&mut heap.arena, &heap.table, BASE, 7, 2), Answer { number: 0, value: 2 }, "{}", S::NAME);
    let other = BASE + heap.half;
    let copied = S::copy(&mut heap.arena, &heap.table, BASE, other, 1);
    assert_eq!(copied, Answer { number: 0, value: 1 }, "{}", S::NAME);
    assert_eq!(S::give(&heap.arena, &mut heap.table, BASE), DONE, "{}", S::NAME);
    let mut given_back = heap.entries(0);
    given_back[..heap.half as usize / 16].fill(0);
    assert_eq!(heap.table, given_back, "{}: m = {m}", S::NAME);
    assert_eq!(S::get(&mut heap.arena, &mut heap.table, heap.half), Answer { number: 0, value: BASE });
    assert_eq!(heap.table, heap.entries(0), "{}: m = {m}", S::NAME);
    assert_eq!(S::write(&mut heap.arena, &heap.table, BASE, 1, 9), DONE, "{}", S::NAME);
}

/// Gets until no range is free: none gives a locked block, clears its bytes or changes its entries.
fn gets_beside_it<S: Subject>(m: u32) {
    let mut heap = Heap::locked::<S>(m);
    let (before, half) = (heap.arena.clone(), heap.half as usize);
    assert_eq!(S::lock(&heap.arena, &mut heap.table, BASE + heap.half), DONE);
    let mut expected = heap.table.clone();
    assert_eq!((expected[0], expected[half / 16]), (LOCK | (m - 1) as u8, LOCK | 4), "{}", S::NAME);
    for slot in half / 16 + 1..1 << (m - 4) {
        let answer = S::get(&mut heap.arena, &mut heap.table, 16);
        assert_eq!(answer, Answer { number: 0, value: BASE + 16 * slot as u32 }, "{}", S::NAME);
        expected[slot] = 4;
    }
    assert_eq!(S::get(&mut heap.arena, &mut heap.table, 1), refused(21), "{}", S::NAME);
    assert_eq!(heap.table, expected, "{}: m = {m}", S::NAME);
    assert!(heap.arena[..half + 16] == before[..half + 16], "{}: bytes of a locked block", S::NAME);
}

/// Whether the table is damaged, which all calls must agree on.
fn is_damaged<S: Subject>(table: &[u8]) -> bool {
    let (mut arena, mut lent) = (vec![0x5A; 16 * table.len()], table.to_vec());
    // outside the arena, where nothing but damage is told before
    let number = S::left(&arena, &lent, 0).number;
    assert!([20, 27].contains(&number), "{}: left, {table:?}", S::NAME);
    let damaged = number == 20;
    let expected = if damaged { 20 } else { 27 };
    assert_eq!(S::fill(&mut arena, &lent, 0, 1, 1).number, expected, "{}: fill, {table:?}", S::NAME);
    assert_eq!(S::give(&arena, &mut lent, 0).number, expected, "{}: give, {table:?}", S::NAME);
    assert_eq!(S::lock(&arena, &mut lent, 0).number, expected, "{}: lock, {table:?}", S::NAME);
    assert_eq!(S::unlock(&arena, &mut lent, 0).number, expected, "{}: unlock, {table:?}", S::NAME);
    assert_eq!(S::grid(&arena, &lent, 0, 1, 1, 0, 0).number, expected, "{}: grid, {table:?}", S::NAME);
    assert_eq!(S::get(&mut arena, &mut lent, 1).number == 20, damaged, "{}: get, {table:?}", S::NAME);
    damaged
}

/// Which entries are damage: every byte in one slot, alone or among blocks, and in all slots.
fn damage<S: Subject>(m: u32) {
    let slots = 1usize << (m - 4);
    for entry in 0..=255u8 {
        let order = u32::from(entry & !LOCK);
        let whole = entry == 0 || (4..=m).contains(&order);
        assert_eq!(is_damaged::<S>(&vec![entry; slots]), !whole, "{}: all {entry}, m = {m}", S::NAME);
        for (others, at) in [(0, 0), (0, slots - 1), (4, 0), (LOCK | 4, slots - 1)] {
            let mut table = vec![others; slots];
            table[at] = entry;
            let good = [0, 4, LOCK | 4].contains(&entry);
            assert_eq!(is_damaged::<S>(&table), !good, "{}: {entry} at {at}, others {others}, m = {m}", S::NAME);
        }
    }
}

/// A block whose slots have not all the same top bit is damaged; two neighbours may differ.
fn mixed_top_bits<S: Subject>(m: u32) {
    let slots = 1usize << (m - 4);
    for order in 5..=m {
        let of_it = 1usize << (order - 4);
        for bits in [0, LOCK] {
            let whole = vec![order as u8 | bits; slots];
            for at in [0, 1, of_it / 2, of_it - 1, slots - 1] {
                let mut table = whole.clone();
                table[at] ^= LOCK;
                assert!(is_damaged::<S>(&table), "{}: {at} in blocks of order {order}, m = {m}", S::NAME);
            }
            let mut table = whole;
            table[..of_it].iter_mut().for_each(|entry| *entry ^= LOCK);
            assert!(!is_damaged::<S>(&table), "{}: blocks of order {order}, m = {m}", S::NAME);
        }
    }
}

/// Records on two blocks of 16 bytes, with what each answers.
fn records() -> Vec<(Record, u32, u32)> {
    vec![
        (Record::Get { d: 0, n: 16 }, 0, BASE),
        (Record::Get { d: 1, n: 16 }, 0, BASE + 16),
        (Record::Write { a: 0, w: 4, v: 0x0102_0304 }, 0, 0),
        (Record::Step { d: 2, a: 0, i: 13 }, 0, BASE + 13),
        (Record::Lock { a: 2 }, 0, 0),
        (Record::Lock { a: 0 }, 0, 0),
        (Record::Write { a: 0, w: 1, v: 9 }, 28, 0),
        (Record::Write { a: 2, w: 4, v: 9 }, 25, 0),
        (Record::Write { a: 2, w: 3, v: 9 }, 11, 0),
        (Record::Write { a: 2, w: 1, v: 256 }, 12, 0),
        (Record::Fill { d: 3, a: 0, v: 9, n: 0 }, 28, 0),
        (Record::Fill { d: 3, a: 2, v: 9, n: 9 }, 28, 0),
        (Record::Copy { d: 3, a: 0, b: 1, n: 0 }, 28, 0),
        (Record::Copy { d: 3, a: 2, b: 0, n: 1 }, 28, 0),
        (Record::Copy { d: 3, a: 0, b: 15, n: 1 }, 27, 0),
        (Record::Copy { d: 3, a: 1, b: 0, n: 3 }, 0, 3),
        (Record::Give { a: 2 }, 23, 0),
        (Record::Give { a: 0 }, 28, 0),
        (Record::Read { d: 4, a: 0, w: 2 }, 0, 0x0102),
        (Record::Left { d: 5, a: 2 }, 0, 3),
        (Record::Grid { d: 9, a: 0, rows: 4, columns: 4, row: 3, column: 1 }, 0, BASE + 13),
        (Record::Grid { d: 9, a: 2, rows: 2, columns: 2, row: 0, column: 0 }, 25, 0),
        (Record::Write { a: 9, w: 1, v: 9 }, 28, 0),
        (Record::Step { d: 6, a: 0, i: 8u32.wrapping_neg() }, 0, (BASE - 8) | MARK),
        (Record::Lock { a: 6 }, 13, 0),
        (Record::Unlock { a: 6 }, 13, 0),
        (Record::Step { d: 7, a: 6, i: 8 }, 0, BASE),
        (Record::Lock { a: 15 }, 27, 0),
        (Record::Unlock { a: 15 }, 27, 0),
        (Record::Unlock { a: 2 }, 0, 0),
        (Record::Unlock { a: 0 }, 0, 0),
        (Record::Write { a: 0, w: 1, v: 9 }, 0, 0),
        (Record::Give { a: 0 }, 0, 0),
        (Record::Lock { a: 0 }, 22, 0),
        (Record::Unlock { a: 2 }, 22, 0),
        (Record::Get { d: 0, n: 16 }, 0, BASE),
        (Record::Fill { d: 8, a: 0, v: 7, n: 2 }, 0, 2),
        (Record::Lock { a: 1 }, 0, 0),
        (Record::Give { a: 1 }, 28, 0),
    ]
}

/// The arena and the table that the records leave in 2^m bytes.
fn left_by_them(m: u32) -> (Vec<u8>, Vec<u8>) {
    let (mut arena, mut table) = (vec![0; 1 << m], vec![0; 1 << (m - 4)]);
    arena[..2].fill(7);
    arena[16..19].copy_from_slice(&[1, 2, 3]);
    table[..2].copy_from_slice(&[4, LOCK | 4]);
    (arena, table)
}

/// The answers' five bytes each.
fn as_bytes(answers: impl Iterator<Item = (u32, u32)>) -> Vec<u8> {
    answers.flat_map(|(number, value)| [&[number as u8], &value.to_be_bytes()[..]].concat()).collect()
}

/// The records as a take, uploaded and from the panel. Neither lock nor unlock sets a register.
fn in_takes<S: Subject>(m: u32) {
    let mut file = vec![VERSION, m as u8];
    records().into_iter().for_each(|(record, _, _)| append(&mut file, record));
    let expected = as_bytes(records().into_iter().map(|(_, number, value)| (number, value)));
    let mut registers = [0; 16];
    let held = [BASE, BASE + 16, BASE + 13, 3, 0x0102, 3, (BASE - 8) | MARK, BASE, 2, BASE + 13];
    registers[..held.len()].copy_from_slice(&held);
    for caller in [Caller::Upload, Caller::Panel] {
        let (mut arena, mut table) = (vec![0x5A; 1 << m], vec![LOCK | 4; 1 << (m - 4)]);
        let mut answers = vec![0x5A; expected.len()];
        let ran = caller.run::<S>(&file, &mut arena, &mut table, &mut answers, records().len() as u32);
        let what = format!("{}, {caller:?}, m = {m}", S::NAME);
        assert_eq!((ran.number, ran.count as usize), (0, records().len()), "{what}");
        for (k, (found, expected)) in answers.chunks(5).zip(expected.chunks(5)).enumerate() {
            assert_eq!(found, expected, "{what}: record {k}, {:?}", records()[k].0);
        }
        assert_eq!(ran.registers, registers, "{what}");
        assert!((arena, table) == left_by_them(m), "{what}: the buffers");
    }
}

/// The calls that the records make, replayed. What lock and unlock do not name is not looked at.
fn in_replays<S: Subject>(m: u32) {
    let mut between = Between::first();
    let mut list = Vec::new();
    for (record, number, value) in records() {
        between.carry_out(record, |call| {
            let mut bytes = call.encode();
            if let Call::Lock { .. } | Call::Unlock { .. } = call {
                bytes[1] = 0xA5;
                bytes[6..].fill(0xA5);
            }
            list.extend_from_slice(&bytes);
            Answer { number, value }
        });
    }
    let expected = as_bytes(records().into_iter().map(|(_, number, value)| (number, value)));
    let (mut arena, mut table) = (vec![0x5A; 1 << m], vec![LOCK | 4; 1 << (m - 4)]);
    let mut out = vec![0x5A; expected.len()];
    assert_eq!(S::replay(&mut arena, &mut table, &list, &mut out), 0, "{}", S::NAME);
    assert_eq!(out, expected, "{}: replay, m = {m}", S::NAME);
    assert!((arena, table) == left_by_them(m), "{}: the buffers after a replay, m = {m}", S::NAME);
    for operation in [0, 11, 12, 14, 255] {
        list[4 * 14] = operation;
        assert_eq!(S::replay(&mut vec![0; 1 << m], &mut vec![0; 1 << (m - 4)], &list, &mut out), 5, "{}", S::NAME);
    }
}

/// Operations 9 and 10 in a file: one register, length 2.
fn read_and_written<S: Subject>() {
    let record = |operation: u8, a: u8| if operation == 9 { Record::Lock { a } } else { Record::Unlock { a } };
    for operation in [9, 10] {
        for a in [0, 3, 15] {
            let mut out = [0x5A; 4];
            assert_eq!(S::read_record(&[2, operation, a], 0), Ok((record(operation, a), 3)), "{}", S::NAME);
            assert_eq!(S::write_record(&mut out, record(operation, a)), Answer { number: 0, value: 3 }, "{}", S::NAME);
            assert_eq!(out, [2, operation, a, 0x5A], "{}", S::NAME);
            assert_eq!(S::write_record(&mut out[..2], record(operation, a)), refused(9), "{}", S::NAME);
        }
        for a in [16, 128, 255] {
            assert_eq!(S::read_record(&[2, operation, a], 0), Err(7), "{}", S::NAME);
            assert_eq!(S::write_record(&mut [0; 4], record(operation, a)), refused(7), "{}", S::NAME);
            assert_eq!(S::write_record(&mut [], record(operation, a)), refused(7), "{}", S::NAME);
        }
        for bytes in [&[1, operation][..], &[3, operation, 0, 0], &[6, operation, 0, 0, 0, 0, 16]] {
            assert_eq!(S::read_record(bytes, 0), Err(6), "{}", S::NAME);
        }
    }
    for operation in [0, 255] {
        assert_eq!(S::read_record(&[2, operation, 0], 0), Err(5), "{}", S::NAME);
    }
}

/// All of it in heaps up to order `largest`.
fn all<S: Subject>(largest: u32) {
    for m in 5..=largest {
        locks::<S>(m);
        refused_by_the_lock::<S>(m);
        judged_before::<S>(m);
        refused_locks::<S>(m);
        as_before::<S>(m);
        beside_it::<S>(m);
        unlocked_again::<S>(m);
        in_takes::<S>(m);
        in_replays::<S>(m);
    }
    for m in 5..=largest.min(9) {
        gets_beside_it::<S>(m);
        damage::<S>(m);
        mixed_top_bits::<S>(m);
    }
    read_and_written::<S>();
}

#[test]
fn plain() {
    all::<Plain>(16);
}

/// The ledger's damage scan takes the square of the table's length.
#[test]
fn literal() {
    all::<Literal>(10);
}

#[cfg(feature = "library")]
#[test]
fn library() {
    all::<tulivombe_tests::library::Library>(16);
}

/// What was met where a call is given a locked block as p: its name and number.
type Met = BTreeSet<(&'static str, u32)>;

/// Notes a call, with two more names: copy and fill of 0 bytes, and a copy out of a locked block.
fn meet(met: &mut Met, before: &Ledger, call: Call, number: u32) {
    let Some(&p) = call.pointers().first() else { return };
    let at_it = p < MARK && before.locked(p);
    let name = match call {
        Call::Copy { q, .. } if number == 0 && before.locked(q) => "copy out",
        Call::Copy { n: 0, .. } | Call::Fill { n: 0, .. } if at_it && number == 28 => "of 0 bytes",
        _ if at_it => call.name(),
        _ => return,
    };
    met.insert((name, number));
}

/// That each call meets a locked block with every number that can then refuse it.
fn every_way() -> Met {
    let numbers: [(_, &[u32]); 12] = [
        ("give", &[23, 28]),
        ("step", &[0, 24]),
        ("read", &[0, 11, 25]),
        ("write", &[11, 12, 25, 28]),
        ("left", &[0]),
        ("copy", &[13, 22, 27, 28]),
        ("fill", &[28]),
        ("lock", &[0]),
        ("unlock", &[0]),
        ("grid", &[0, 25, 30]),
        ("of 0 bytes", &[28]),
        ("copy out", &[0]),
    ];
    numbers.into_iter().flat_map(|(name, numbers)| numbers.iter().map(move |&number| (name, number))).collect()
}

#[test]
fn random_calls_meet_locked_blocks_in_every_way() {
    let rng = &mut Rng::seeded("random_calls_meet_locked_blocks_in_every_way");
    let mut met = Met::new();
    for _ in 0..10_000 * times() {
        let m = rng.within(5, 9);
        let table = random::sound_table(rng, m);
        let before = ledger(&vec![0; 1 << m], &table, m);
        for _ in 0..8 {
            let call = random::call(rng, &table, m, &[]);
            let number = before.clone().feed(call).number;
            meet(&mut met, &before, call, number);
        }
    }
    assert_eq!(met, every_way());
}

#[test]
fn random_takes_meet_locked_blocks_in_every_way() {
    let rng = &mut Rng::seeded("random_takes_meet_locked_blocks_in_every_way");
    let mut met = Met::new();
    for _ in 0..4_000 * times() {
        let m = rng.within(5, 9);
        let file = random::file(rng, m, 120);
        each_call(&file, m, |before, call, number| meet(&mut met, before, call, number));
    }
    assert_eq!(met, every_way());
}
