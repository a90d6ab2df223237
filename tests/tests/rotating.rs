//! Request 3 of document 02: copy stores what the source held before the call, whichever way the two ranges overlap.

use tulivombe_tests::literal::Literal;
use tulivombe_tests::plain::heap::{BASE, MARK};
use tulivombe_tests::plain::takes::VERSION;
use tulivombe_tests::random::append;
use tulivombe_tests::record::Record;
use tulivombe_tests::subject::{Answer, Caller, Plain, Subject};

/// The count of a copy among blocks of `size` bytes, and all bytes after it, each taken from those before.
fn copied(before: &[u8], size: usize, to: usize, from: usize, n: u32) -> (u32, Vec<u8>) {
    let left = |at: usize| size - at % size;
    let count = left(to).min(left(from)).min(n as usize);
    let mut after = before.to_vec();
    for (k, &byte) in before[from..from + count].iter().enumerate() {
        after[to + k] = byte;
    }
    (count as u32, after)
}

/// A heap whose arena is full of blocks of one size.
struct Heap {
    arena: Vec<u8>,
    table: Vec<u8>,
    size: usize,
}

impl Heap {
    /// Bytes less than 219 apart differ, and so do those 16,383, 16,384 or 16,385 apart: no
    /// byte passes for one that a wrong order would bring in its place.
    fn new<S: Subject>(m: u32, order: u32) -> Heap {
        let (mut arena, mut table) = (vec![0x5A; 1 << m], vec![0x5A; 1 << (m - 4)]);
        S::fresh(&mut arena, &mut table);
        for _ in 0..1 << (m - order) {
            assert_eq!(S::get(&mut arena, &mut table, 1 << order).number, 0);
        }
        for (at, byte) in arena.iter_mut().enumerate() {
            *byte = (at + 37 * (at / 256)) as u8;
        }
        Heap { arena, table, size: 1 << order }
    }

    fn copy<S: Subject>(&self, to: usize, from: usize, n: u32) {
        let (mut arena, table) = (self.arena.clone(), self.table.clone());
        let (count, expected) = copied(&arena, self.size, to, from, n);
        let answer = S::copy(&mut arena, &table, BASE + to as u32, BASE + from as u32, n);
        let what = format!("{}: {n} bytes to {to} from {from}, blocks of {}", S::NAME, self.size);
        assert_eq!(answer, Answer { number: 0, value: count }, "{what}");
        assert!(arena == expected, "{what}: the arena");
        assert!(table == self.table, "{what}: the table");
    }

    fn up_and_down<S: Subject>(&self, low: usize, distance: usize, n: u32) {
        self.copy::<S>(low + distance, low, n);
        self.copy::<S>(low, low + distance, n);
    }
}

/// Every copy in an arena of 32 bytes, which is one block or two.
fn all_of_a_small_heap<S: Subject>() {
    for heap in [Heap::new::<S>(5, 5), Heap::new::<S>(5, 4)] {
        for (to, from) in (0..32).flat_map(|to| (0..32).map(move |from| (to, from))) {
            (0..=33).for_each(|n| heap.copy::<S>(to, from, n));
        }
    }
}

/// In one block: onto itself, up and down, with and without an overlap, and cut short at the end.
fn in_one_block<S: Subject>(m: u32) {
    let heap = Heap::new::<S>(m, m);
    let size = heap.size;
    for distance in [0, 1, size / 4, size / 2 - 1, size / 2, size / 2 + 1, size - 1] {
        for n in [0, 1, (size - distance) as u32, 1 << m, u32::MAX] {
            heap.up_and_down::<S>(0, distance, n);
        }
    }
}

/// Between two blocks, each of which can cut the copy short.
fn between_blocks<S: Subject>(m: u32) {
    let heap = Heap::new::<S>(m, m - 1);
    let size = heap.size;
    for (low, distance) in [(0, size), (5, size - 5), (size - 1, 1), (size - 5, 9), (9, size + 5)] {
        for n in [0, 7, 1 << m, u32::MAX] {
            heap.up_and_down::<S>(low, distance, n);
        }
    }
}

/// Counts round multiples of 16,384, as the library moves many bytes in chunks of so many; asked for, and cut short.
fn round_chunks<S: Subject>() {
    let heap = Heap::new::<S>(16, 16);
    for count in [16_383, 16_384, 16_385, 32_767, 32_768, 32_769, 40_000] {
        for distance in [1, 16, 64, 16_383, 16_384, 16_385, count / 2 + 1] {
            heap.up_and_down::<S>(5, distance, count as u32);
            heap.up_and_down::<S>(heap.size - distance - count, distance, u32::MAX);
        }
    }
}

/// A refused copy stores nothing, even where its ranges overlap.
fn refused<S: Subject>() {
    let Heap { mut arena, mut table, .. } = Heap::new::<S>(8, 7);
    assert_eq!(S::give(&arena, &mut table, BASE + 128).number, 0);
    let before = arena.clone();
    let mut copy = |table: &[u8], p: u32, q: u32| {
        let answer = S::copy(&mut arena, table, p, q, 64);
        assert!(arena == before, "{}: bytes after a refused copy to {p} from {q}", S::NAME);
        answer
    };
    // marked, both are sought a slot back, in the same block
    for (p, q) in [(BASE + 16, BASE + 17), (BASE + 17, BASE + 16)] {
        assert_eq!(copy(&table, p | MARK, q), Answer { number: 13, value: 0 });
        assert_eq!(copy(&table, p, q | MARK), Answer { number: 13, value: 0 });
        assert_eq!(copy(&table[1..], p, q), Answer { number: 8, value: 0 });
    }
    for (live, lost, number) in [(BASE, BASE - 1, 27), (BASE + 127, BASE + 128, 22)] {
        assert_eq!(copy(&table, live, lost), Answer { number, value: 0 });
        assert_eq!(copy(&table, lost, live), Answer { number, value: 0 });
    }
    table[15] = 3;
    assert_eq!(copy(&table, BASE + 1, BASE), Answer { number: 20, value: 0 });
    assert_eq!(copy(&table, BASE, BASE + 1), Answer { number: 20, value: 0 });
}

/// A take that writes 1 to 16 into a block, copies within it, and reads it into the registers 4 to 7.
fn take(to: usize, from: usize, n: u32) -> Vec<u8> {
    let mut records = vec![Record::Get { d: 0, n: 16 }];
    for at in [0, 4, 8, 12] {
        records.push(Record::Step { d: 1, a: 0, i: at });
        records.push(Record::Write { a: 1, w: 4, v: 0x0102_0304 + at * 0x0101_0101 });
    }
    records.push(Record::Step { d: 1, a: 0, i: to as u32 });
    records.push(Record::Step { d: 2, a: 0, i: from as u32 });
    records.push(Record::Copy { d: 3, a: 1, b: 2, n });
    for at in [0, 4, 8, 12] {
        records.push(Record::Step { d: 1, a: 0, i: at });
        records.push(Record::Read { d: 4 + at as u8 / 4, a: 1, w: 4 });
    }
    let mut file = vec![VERSION, 5];
    records.into_iter().for_each(|record| append(&mut file, record));
    file
}

fn in_a_take<S: Subject>(caller: Caller, to: usize, from: usize, n: u32) {
    let written: Vec<u8> = (1..=16).collect();
    let (count, expected) = copied(&written, 16, to, from, n);
    let (mut arena, mut table, mut answers) = ([0x5A; 32], [0x5A; 2], [0x5A; 100]);
    let ran = caller.run::<S>(&take(to, from, n), &mut arena, &mut table, &mut answers, 20);
    let what = format!("{}, {caller:?}: {n} bytes to {to} from {from}", S::NAME);
    assert_eq!((ran.number, ran.count, ran.registers[3]), (0, 20, count), "{what}");
    let read: Vec<u8> = ran.registers[4..8].iter().flat_map(|word| word.to_be_bytes()).collect();
    assert_eq!(read, expected, "{what}");
    assert_eq!((&arena[..16], &arena[16..], table), (&expected[..], &[0; 16][..], [4, 0]), "{what}");
}

/// Every copy in a block of 16 bytes.
fn in_takes<S: Subject>() {
    for (to, from) in (0..16).flat_map(|to| (0..16).map(move |from| (to, from))) {
        for n in 0..=17 {
            in_a_take::<S>(Caller::Upload, to, from, n);
            in_a_take::<S>(Caller::Panel, to, from, n);
        }
    }
}

/// All but the long copies, in heaps up to order `largest`.
fn all<S: Subject>(largest: u32) {
    all_of_a_small_heap::<S>();
    (5..=largest).for_each(in_one_block::<S>);
    (5..=largest).for_each(between_blocks::<S>);
    refused::<S>();
    in_takes::<S>();
}

#[test]
fn plain() {
    all::<Plain>(16);
    round_chunks::<Plain>();
}

/// The ledger's damage scan takes the square of the table's length: at order 16 some 40 ms a call.
#[test]
fn literal() {
    all::<Literal>(14);
}

#[cfg(feature = "library")]
#[test]
fn library() {
    use tulivombe_tests::library::Library;
    all::<Library>(16);
    round_chunks::<Library>();
}

/// What makes copy as fast as memmove is that the compiler makes a memmove of the two loops over a chunk.
#[cfg(feature = "library")]
#[test]
fn library_calls_memmove() {
    let library = std::fs::read(env!("TULIVOMBE_LIBRARY")).expect("the build script has put it there");
    assert!(library.windows(8).any(|bytes| bytes == b"memmove\0"), "the library asks for no memmove");
}
