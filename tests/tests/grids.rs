//! Request 10 of document 02: the address of a place in a grid. The whole grid must lie in its pointer's home, whichever
//! place is asked for (25), and the place in the grid (30). A grid changes nothing, and a lock does not matter.

use std::collections::BTreeSet;
use tulivombe_tests::call::Call;
use tulivombe_tests::ledger::Ledger;
use tulivombe_tests::literal::{each_call, ledger, Between, Literal};
use tulivombe_tests::outcome::{take, Outcome};
use tulivombe_tests::plain::heap::{BASE, LOCK, MARK};
use tulivombe_tests::random::{self, times, Rng};
use tulivombe_tests::record::Record;
use tulivombe_tests::subject::{Answer, Caller, Plain, Subject};

/// Rows and columns, or a row and a column.
type Pair = (u8, u8);

fn grid(p: u32, (rows, columns): Pair, (row, column): Pair) -> Call {
    Call::Grid { p, rows, columns, row, column }
}

/// A grid in register a, its place into register d.
fn record(d: u8, a: u8, (rows, columns): Pair, (row, column): Pair) -> Record {
    Record::Grid { d, a, rows, columns, row, column }
}

fn given(value: u32) -> Answer {
    Answer { number: 0, value }
}

fn refused(number: u32) -> Answer {
    Answer { number, value: 0 }
}

/// A heap of 2^m bytes: a block of the lower half, one of 16 bytes after it, and what is left, free.
#[derive(Clone)]
struct Heap {
    arena: Vec<u8>,
    table: Vec<u8>,
    half: u32,
}

impl Heap {
    fn new<S: Subject>(m: u32) -> Heap {
        let (mut arena, mut table) = (vec![0x5A; 1 << m], vec![0x5A; 1 << (m - 4)]);
        let half = 1 << (m - 1);
        S::fresh(&mut arena, &mut table);
        assert_eq!(S::get(&mut arena, &mut table, half), given(BASE));
        assert_eq!(S::get(&mut arena, &mut table, 16), given(BASE + half));
        arena.iter_mut().enumerate().for_each(|(at, byte)| *byte = (at % 251) as u8);
        Heap { arena, table, half }
    }

    /// One block that is the whole arena.
    fn whole<S: Subject>(m: u32) -> Heap {
        let (mut arena, mut table) = (vec![0x5A; 1 << m], vec![0; 1 << (m - 4)]);
        assert_eq!(S::get(&mut arena, &mut table, 1 << m), given(BASE));
        Heap { arena, table, half: 1 << (m - 1) }
    }

    /// The last addresses of both blocks.
    fn ends(&self) -> [u32; 2] {
        [BASE + self.half - 1, BASE + self.half + 15]
    }

    /// The call gives the answer, and leaves both buffers as they are.
    fn answers<S: Subject>(&self, call: Call, expected: Answer) {
        let (mut arena, mut table) = (self.arena.clone(), self.table.clone());
        let answer = call.make::<S>(&mut arena, &mut table);
        assert_eq!(answer, expected, "{}: {call:?}, {} bytes", S::NAME, self.arena.len());
        assert!(arena == self.arena && table == self.table, "{}: {call:?} changed a buffer", S::NAME);
    }

    /// A grid from p, in a block that ends at `end`: its first place, its last and those past its last row and column.
    fn corners<S: Subject>(&self, p: u32, end: u32, (rows, columns): Pair) {
        let [height, width] = [rows, columns].map(u32::from);
        self.answers::<S>(grid(p, (rows, columns), (rows, 0)), refused(30));
        self.answers::<S>(grid(p, (rows, columns), (0, columns)), refused(30));
        if rows == 0 || columns == 0 {
            return self.answers::<S>(grid(p, (rows, columns), (0, 0)), refused(30));
        }
        let fits = p - 1 + height * width <= end;
        let places = [((0, 0), p), ((rows - 1, columns - 1), p - 1 + height * width)];
        for (place, address) in places.into_iter().chain([((rows - 1, 0), p + (height - 1) * width)]) {
            let expected = if fits { given(address) } else { refused(25) };
            self.answers::<S>(grid(p, (rows, columns), place), expected);
        }
    }
}

/// Every grid of up to 34 by 34, from every address of two small blocks: by rows, by columns and by a moved start they
/// just fit or miss by one.
fn all_small<S: Subject>() {
    let heap = Heap::new::<S>(6);
    let [first, second] = heap.ends();
    for (p, end) in (BASE..=second).map(|p| (p, if p <= first { first } else { second })) {
        for shape in (0..=34).flat_map(|rows| (0..=34).map(move |columns| (rows, columns))) {
            heap.corners::<S>(p, end, shape);
        }
    }
}

/// For each count of rows the columns that just fit, one more and one less, from the start of a block of 2^(m - 1) bytes
/// and from places in it.
fn just_fits<S: Subject>(m: u32) {
    let heap = Heap::new::<S>(m);
    let [end, _] = heap.ends();
    for p in [BASE, BASE + 1, BASE + heap.half / 2, end - 7, end] {
        for rows in 1..=255 {
            let most = (end - p + 1) / u32::from(rows);
            let near = [most.saturating_sub(1), most, most + 1].map(|columns| columns.min(255) as u8);
            near.into_iter().for_each(|columns| heap.corners::<S>(p, end, (rows, columns)));
        }
    }
}

/// At a block's last byte one place fits. Two do not, though the one asked for would.
fn last_byte<S: Subject>(m: u32) {
    let heap = Heap::new::<S>(m);
    for p in heap.ends() {
        heap.answers::<S>(grid(p, (1, 1), (0, 0)), given(p));
        heap.answers::<S>(grid(p - 1, (1, 2), (0, 1)), given(p));
        heap.answers::<S>(grid(p - 1, (2, 1), (1, 0)), given(p));
        for shape in [(2, 1), (1, 2), (255, 1), (1, 255), (255, 255)] {
            heap.answers::<S>(grid(p, shape, (0, 0)), refused(25));
        }
        heap.answers::<S>(grid(p, (1, 1), (1, 0)), refused(30));
        heap.answers::<S>(grid(p, (1, 1), (0, 1)), refused(30));
    }
}

/// Every grid of more than 16 bytes in a block of 16, also those whose count of bytes is a multiple of 256. Its first place
/// would lie in the block, and its bytes in the next one or past the arena.
fn too_many_bytes<S: Subject>() {
    let heap = Heap::new::<S>(5);
    for (rows, columns) in (1..=255).flat_map(|rows: u8| (1..=255).map(move |columns: u8| (rows, columns))) {
        let expected = |p: u32| if u32::from(rows) * u32::from(columns) <= 16 { given(p) } else { refused(25) };
        for p in [BASE, BASE + 16] {
            assert_eq!(S::grid(&heap.arena, &heap.table, p, rows, columns, 0, 0), expected(p), "{}", S::NAME);
        }
    }
}

/// 255 bytes in one row or one column, in a block of 256.
fn longest_line<S: Subject>() {
    let heap = Heap::new::<S>(9);
    for on in 0..4 {
        let p = BASE + on;
        let expected = |value: u32| if on <= 1 { given(value) } else { refused(25) };
        heap.answers::<S>(grid(p, (1, 255), (0, 254)), expected(p + 254));
        heap.answers::<S>(grid(p, (255, 1), (254, 0)), expected(p + 254));
        heap.answers::<S>(grid(p, (1, 255), (0, 0)), expected(p));
        heap.answers::<S>(grid(p, (255, 1), (100, 0)), expected(p + 100));
    }
}

/// 255 by 255, 65,025 bytes: in the largest block from any of its first 512 addresses, and in no smaller one.
fn largest<S: Subject>() {
    let heap = Heap::whole::<S>(16);
    for (on, fits) in [(0, true), (1, true), (511, true), (512, false), (65_535, false)] {
        let p = BASE + on;
        for (place, more) in [((0, 0), 0), ((254, 254), 65_024), ((1, 2), 257), ((254, 0), 64_770)] {
            let expected = if fits { given(p + more) } else { refused(25) };
            heap.answers::<S>(grid(p, (255, 255), place), expected);
        }
    }
    let smaller = Heap::new::<S>(16);
    smaller.answers::<S>(grid(BASE, (255, 255), (0, 0)), refused(25));
    smaller.answers::<S>(grid(BASE, (255, 128), (254, 127)), given(BASE + 32_639));
    smaller.answers::<S>(grid(BASE, (128, 255), (127, 1)), given(BASE + 32_386));
    smaller.answers::<S>(grid(BASE, (255, 129), (0, 0)), refused(25));
    smaller.answers::<S>(grid(BASE + 128, (255, 128), (0, 0)), given(BASE + 128));
    smaller.answers::<S>(grid(BASE + 129, (255, 128), (0, 0)), refused(25));
}

/// The places of a grid have an address each, row by row, no two the same; each lies in the block of the grid's pointer,
/// and its byte can be read.
fn places_apart<S: Subject>(heap: &Heap, p: u32, end: u32, (rows, columns): Pair) {
    let (arena, table) = (&heap.arena, &heap.table);
    let what = format!("{}: {rows} by {columns} from {p}", S::NAME);
    let mut addresses = BTreeSet::new();
    for (row, column) in (0..rows).flat_map(|row| (0..columns).map(move |column| (row, column))) {
        let answer = S::grid(arena, table, p, rows, columns, row, column);
        let address = p + addresses.len() as u32;
        assert_eq!(answer, given(address), "{what}: {row}, {column}");
        assert!(addresses.insert(answer.value), "{what}: {row}, {column} shares its address");
        assert_eq!(S::left(arena, table, address), given(end - address + 1), "{what}: {address}");
        assert_eq!(S::check(arena, table, p, address - p), given(1), "{what}: {address}");
        let byte = arena[(address - BASE) as usize];
        assert_eq!(S::read(arena, table, address, 1), given(byte.into()), "{what}: {address}");
    }
    assert_eq!(addresses.len(), usize::from(rows) * usize::from(columns), "{what}");
}

/// Places of grids of many shapes; the largest of all where `largest` says so.
fn all_places<S: Subject>(largest: u32) {
    let heap = Heap::new::<S>(9);
    let [first, second] = heap.ends();
    for shape in [(1, 1), (1, 16), (16, 1), (4, 4), (3, 5), (2, 7)] {
        let bytes = u32::from(shape.0) * u32::from(shape.1);
        places_apart::<S>(&heap, second + 1 - bytes, second, shape);
        places_apart::<S>(&heap, BASE + 3, first, shape);
    }
    for shape in [(16, 16), (2, 128), (128, 2), (1, 255), (255, 1), (15, 17)] {
        places_apart::<S>(&heap, BASE, first, shape);
    }
    if largest == 16 {
        let heap = Heap::whole::<S>(16);
        places_apart::<S>(&heap, BASE + 511, BASE + 65_535, (255, 255));
        places_apart::<S>(&heap, BASE, BASE + 65_535, (200, 255));
    }
}

/// Grids that are too large from anywhere: their first and their last place.
fn too_large(p: u32) -> [Call; 2] {
    [grid(p, (255, 255), (0, 0)), grid(p, (255, 255), (254, 254))]
}

/// Places that no grid has, or not this one.
fn nowhere(p: u32) -> [Call; 7] {
    let shapes = [((0, 0), (0, 0)), ((0, 9), (0, 3)), ((9, 0), (3, 0)), ((3, 9), (3, 0)), ((9, 3), (0, 3))];
    let [a, b, c, d, e] = shapes.map(|(shape, place)| grid(p, shape, place));
    [a, b, c, d, e, grid(p, (255, 255), (255, 0)), grid(p, (1, 1), (255, 255))]
}

/// Pointers of all kinds, each with the number that refuses a grid from it which is too large. The heap has more than 32
/// bytes, so that its last slot is free.
fn pointers(heap: &Heap) -> Vec<(u32, u32)> {
    let end = BASE + 2 * heap.half;
    let homes = [BASE, BASE + 1, heap.ends()[0], heap.ends()[1]].map(|p| (p, 25));
    // each is sought in one of the blocks
    let marked = [BASE - 8, BASE - 1, BASE + 16, BASE + heap.half + 16].map(|address| (address | MARK, 13));
    let free = [BASE + heap.half + 16, end - 1, end | MARK, (end + 7) | MARK].map(|p| (p, 22));
    let outside = [0, BASE - 1, end, MARK - 1, MARK, BASE | MARK, (end - 8) | MARK, u32::MAX].map(|p| (p, 27));
    [&homes[..], &marked, &free, &outside].concat()
}

/// 8, then 30, then 20, then 27, 22, 13, 25: what comes later applies too.
fn judged_in_order<S: Subject>(m: u32) {
    let good = Heap::new::<S>(m);
    let mut damaged = good.clone();
    *damaged.table.last_mut().expect("a table has slots") = 3;
    let mut short = damaged.clone();
    short.table.pop();
    let mut uneven = good.clone();
    uneven.arena.pop();
    for (p, number) in pointers(&good) {
        for call in nowhere(p) {
            [&short, &uneven].into_iter().for_each(|heap| heap.answers::<S>(call, refused(8)));
            [&damaged, &good].into_iter().for_each(|heap| heap.answers::<S>(call, refused(30)));
        }
        for call in too_large(p) {
            [&short, &uneven].into_iter().for_each(|heap| heap.answers::<S>(call, refused(8)));
            damaged.answers::<S>(call, refused(20));
            good.answers::<S>(call, refused(number));
        }
        let small = if number == 25 { given(p) } else { refused(number) };
        good.answers::<S>(grid(p, (1, 1), (0, 0)), small);
        damaged.answers::<S>(grid(p, (1, 1), (0, 0)), refused(20));
    }
}

/// A locked block's places are given as an unlocked one's, and no grid is refused 28.
fn locked<S: Subject>(m: u32) {
    let mut heap = Heap::new::<S>(m);
    let half = heap.half as usize;
    heap.table[..half / 16].iter_mut().for_each(|entry| *entry |= LOCK);
    let [end, _] = heap.ends();
    for p in [BASE, BASE + 5, end - 15, end] {
        for shape in [(1, 1), (4, 4), (1, 16), (16, 1), (2, 5), (255, 255), (0, 3), (3, 0)] {
            heap.corners::<S>(p, end, shape);
        }
    }
}

/// A place is any other pointer to its byte: what is stored there goes there, and a step leads back.
fn places_are_pointers<S: Subject>(m: u32) {
    let Heap { mut arena, table, .. } = Heap::new::<S>(m);
    let place = S::grid(&arena, &table, BASE + 2, 3, 4, 2, 1).value;
    assert_eq!(place, BASE + 11, "{}", S::NAME);
    let mut expected = arena.clone();
    assert_eq!(S::write(&mut arena, &table, place, 1, 0xEE), given(0), "{}", S::NAME);
    expected[11] = 0xEE;
    assert!(arena == expected, "{}: m = {m}", S::NAME);
    assert_eq!(S::step(&arena, &table, place, 9u32.wrapping_neg()), given(BASE + 2), "{}", S::NAME);
    // and a grid may start there
    assert_eq!(S::grid(&arena, &table, place, 1, 5, 0, 4), given(BASE + 15), "{}", S::NAME);
}

/// Records on a block of 32 bytes and one of 16 after it, with what each answers.
fn records() -> Vec<(Record, u32, u32)> {
    vec![
        (record(1, 0, (1, 1), (0, 0)), 27, 0),
        (Record::Get { d: 0, n: 32 }, 0, BASE),
        (Record::Get { d: 1, n: 16 }, 0, BASE + 32),
        (record(2, 0, (4, 8), (2, 3)), 0, BASE + 19),
        (record(2, 0, (4, 8), (3, 8)), 30, 0),
        (record(2, 0, (4, 8), (4, 0)), 30, 0),
        (record(2, 0, (3, 11), (0, 0)), 25, 0),
        (record(3, 0, (8, 4), (2, 3)), 0, BASE + 11),
        (record(4, 2, (1, 13), (0, 12)), 0, BASE + 31),
        (record(5, 2, (1, 14), (0, 0)), 25, 0),
        (record(5, 4, (1, 1), (0, 0)), 0, BASE + 31),
        (Record::Write { a: 2, w: 1, v: 9 }, 0, 0),
        (Record::Lock { a: 3 }, 0, 0),
        (record(6, 0, (32, 1), (31, 0)), 0, BASE + 31),
        (record(6, 6, (1, 1), (0, 0)), 0, BASE + 31),
        (record(6, 6, (1, 2), (0, 0)), 25, 0),
        // d is a: the pointer is read before the place is stored
        (record(1, 1, (2, 8), (1, 7)), 0, BASE + 47),
        (record(1, 1, (2, 8), (1, 7)), 25, 0),
        (Record::Step { d: 7, a: 0, i: 8u32.wrapping_neg() }, 0, (BASE - 8) | MARK),
        (record(8, 7, (1, 1), (0, 0)), 13, 0),
        (record(8, 7, (0, 1), (0, 0)), 30, 0),
        (Record::Unlock { a: 0 }, 0, 0),
        (Record::Give { a: 0 }, 0, 0),
        (record(8, 7, (1, 1), (0, 0)), 22, 0),
        (record(8, 2, (255, 255), (254, 254)), 22, 0),
        (record(8, 2, (255, 255), (254, 255)), 30, 0),
        (record(15, 15, (255, 255), (0, 0)), 27, 0),
    ]
}

/// The answers' five bytes each.
fn as_bytes(answers: impl Iterator<Item = (u32, u32)>) -> Vec<u8> {
    answers.flat_map(|(number, value)| [&[number as u8], &value.to_be_bytes()[..]].concat()).collect()
}

/// The arena and the table that the records leave in 2^m bytes.
fn left_by_them(m: u32) -> (Vec<u8>, Vec<u8>) {
    let (mut arena, mut table) = (vec![0; 1 << m], vec![0; 1 << (m - 4)]);
    arena[19] = 9;
    table[2] = 4;
    (arena, table)
}

/// The records as a take, uploaded and from the panel. A refused grid stores nothing in its register.
fn in_takes<S: Subject>(m: u32) {
    let file = take(m as u8, &records().iter().map(|&(record, _, _)| record).collect::<Vec<_>>());
    let mut registers = [0; 16];
    let held = [BASE, BASE + 47, BASE + 19, BASE + 11, BASE + 31, BASE + 31, BASE + 31, (BASE - 8) | MARK];
    registers[..held.len()].copy_from_slice(&held);
    for caller in [Caller::Upload, Caller::Panel] {
        let outcome = Outcome::of::<S>(caller, &file, records().len() as u32, 1 << m, 5 * records().len());
        let what = format!("{}, {caller:?}, m = {m}", S::NAME);
        assert_eq!((outcome.ran.number, outcome.ran.count as usize), (0, records().len()), "{what}");
        for (found, (record, number, value)) in outcome.answered().into_iter().zip(records()) {
            assert_eq!(found, (number, value), "{what}: {record:?}");
        }
        assert_eq!(outcome.ran.registers, registers, "{what}");
        assert!((outcome.arena, outcome.table) == left_by_them(m), "{what}: the buffers");
    }
}

/// The calls that the records make, replayed: a grid takes the four bytes of b in their order, and looks at nothing else.
/// Again and set are no calls, and there are none from 14 on.
fn in_replays<S: Subject>(m: u32) {
    let (mut between, mut list) = (Between::first(), Vec::new());
    for (record, number, value) in records() {
        between.carry_out(record, |call| {
            let mut bytes = call.encode();
            if let Call::Grid { p, rows, columns, row, column } = call {
                let of_grid = [&[13, 0xA5][..], &p.to_be_bytes(), &[rows, columns, row, column], &[0xA5; 4]].concat();
                assert_eq!(bytes[6..10], of_grid[6..10]);
                bytes.copy_from_slice(&of_grid);
            }
            list.extend_from_slice(&bytes);
            Answer { number, value }
        });
    }
    let expected = as_bytes(records().into_iter().map(|(_, number, value)| (number, value)));
    let mut o = Outcome::refused(0, 1 << m, expected.len());
    assert_eq!(S::replay(&mut o.arena, &mut o.table, &list, &mut o.answers), 0, "{}", S::NAME);
    assert_eq!(o.answers, expected, "{}: replay, m = {m}", S::NAME);
    assert!((o.arena, o.table) == left_by_them(m), "{}: the buffers after a replay, m = {m}", S::NAME);
    assert_eq!(list[3 * 14], 13);
    for operation in [0, 11, 12, 14, 15, 141, 255] {
        list[3 * 14] = operation;
        let mut o = Outcome::refused(0, 1 << m, expected.len());
        assert_eq!(S::replay(&mut o.arena, &mut o.table, &list, &mut o.answers), 5, "{}: {operation}", S::NAME);
        assert_eq!(o, Outcome::refused(0, 1 << m, expected.len()), "{}: {operation}", S::NAME);
    }
}

/// A record's bytes, written and read back.
fn both_ways<S: Subject>(record: Record, bytes: [u8; 8]) {
    let mut out = [165; 10];
    assert_eq!(S::write_record(&mut out, record), given(8), "{}: {record:?}", S::NAME);
    assert_eq!((&out[..8], &out[8..]), (&bytes[..], &[165; 2][..]), "{}: {record:?}", S::NAME);
    assert_eq!(S::read_record(&bytes, 0), Ok((record, 8)), "{}: {record:?}", S::NAME);
    assert_eq!(S::write_record(&mut out[..7], record), refused(9), "{}: {record:?}", S::NAME);
    assert_eq!(S::read_record(&bytes[..7], 0), Err(4), "{}: {record:?}", S::NAME);
}

/// Operation 13 in a file: every byte in each field, good or not, every register, and each other length.
fn read_and_written<S: Subject>() {
    for v in 0..=255 {
        for bytes in [[v, 2, 3, 4], [1, v, 3, 4], [1, 2, v, 4], [1, 2, 3, v], [v; 4]] {
            let [rows, columns, row, column] = bytes;
            let (d, a) = (v % 16, v / 16);
            both_ways::<S>(record(d, a, (rows, columns), (row, column)), [7, 13, d, a, rows, columns, row, column]);
        }
    }
    for (d, a) in [(16, 0), (0, 16), (255, 255), (128, 15), (15, 17)] {
        let high = record(d, a, (1, 1), (0, 0));
        assert_eq!(S::write_record(&mut [0; 9], high), refused(7), "{}: {high:?}", S::NAME);
        assert_eq!(S::write_record(&mut [], high), refused(7), "{}: {high:?}", S::NAME);
        assert_eq!(S::read_record(&[7, 13, d, a, 1, 1, 0, 0], 0), Err(7), "{}: {high:?}", S::NAME);
        refused_file::<S>(&[7, 13, d, a, 1, 1, 0, 0], 7);
    }
    for wrong in (1..=20).filter(|&wrong| wrong != 7) {
        // the registers are judged after the length
        let bytes = [&[wrong, 13][..], &vec![16; usize::from(wrong) - 1]].concat();
        assert_eq!(S::read_record(&bytes, 0), Err(6), "{}: {bytes:?}", S::NAME);
        refused_file::<S>(&bytes, 6);
    }
    // a place that no grid has is the record's own answer, and refuses no file
    let outcome = Outcome::of::<S>(Caller::Panel, &take(5, &[record(0, 0, (0, 0), (9, 9))]), 1, 32, 5);
    assert_eq!((outcome.ran.number, outcome.answered()), (0, vec![(30, 0)]), "{}", S::NAME);
}

/// Both callers refuse a file with that record, and change nothing.
fn refused_file<S: Subject>(record: &[u8], number: u32) {
    let file = [&[1, 5][..], &[6, 1, 0, 0, 0, 0, 16], record].concat();
    for caller in [Caller::Upload, Caller::Panel] {
        let outcome = Outcome::of::<S>(caller, &file, 9, 32, 45);
        assert_eq!(outcome, Outcome::refused(number, 32, 45), "{}, {caller:?}: {record:?}", S::NAME);
    }
}

/// A roll by again through a block of 64 bytes: each turn writes, and goes to the ninth place of a row of nine. From byte
/// 56 on no such row fits, so the last turns stay there.
fn rolls<S: Subject>() {
    let turns = 12;
    let start = [Record::Get { d: 0, n: 64 }, Record::Step { d: 1, a: 0, i: 0 }];
    let turn = [Record::Fill { d: 2, a: 1, v: 7, n: 1 }, record(1, 1, (1, 9), (0, 8))];
    let repeated = [&[Record::Set { d: 15, n: turns - 1 }][..], &turn, &[Record::Again { d: 15, k: 3 }]].concat();
    let run = |records: &[Record]| Outcome::of::<S>(Caller::Panel, &take(7, records), 500, 128, 2_500);
    let roll = run(&[&start[..], &repeated].concat());
    let out = run(&[&start[..], &turn.repeat(turns as usize)].concat());
    assert_eq!((roll.ran.number, roll.ran.count, roll.ran.stopped), (0, 3 + 3 * turns, false), "{}", S::NAME);
    let grids: Vec<(u32, u32)> = roll.answered()[3..].chunks(3).map(|turn| turn[1]).collect();
    let expected = (1..=turns).map(|turn| if turn < 8 { (0, BASE + 8 * turn) } else { (25, 0) });
    assert_eq!(grids, expected.collect::<Vec<_>>(), "{}", S::NAME);
    assert_eq!(out.answered()[2..].chunks(2).map(|turn| turn[1]).collect::<Vec<_>>(), grids, "{}", S::NAME);
    assert_eq!(roll.ran.registers, out.ran.registers, "{}", S::NAME);
    let mut arena = vec![0; 128];
    arena.iter_mut().take(64).step_by(8).for_each(|byte| *byte = 7);
    assert!(roll.arena == arena && out.arena == arena && roll.table == out.table, "{}: the buffers", S::NAME);
}

/// All of it in heaps up to order `largest`.
fn all<S: Subject>(largest_order: u32) {
    for m in 6..=largest_order {
        just_fits::<S>(m);
        last_byte::<S>(m);
        judged_in_order::<S>(m);
        locked::<S>(m);
        places_are_pointers::<S>(m);
        in_takes::<S>(m);
        in_replays::<S>(m);
    }
    last_byte::<S>(5);
    all_small::<S>();
    too_many_bytes::<S>();
    longest_line::<S>();
    largest::<S>();
    all_places::<S>(largest_order);
    read_and_written::<S>();
    rolls::<S>();
}

#[test]
fn plain() {
    all::<Plain>(16);
}

/// The ledger's damage scan takes the square of the table's length.
#[test]
fn literal() {
    all::<Literal>(9);
}

#[cfg(feature = "library")]
#[test]
fn library() {
    all::<tulivombe_tests::library::Library>(16);
}

/// What random grids must meet: how their bytes and the bytes left compare, and where the place lies.
const WAYS: [&str; 12] = [
    "just fits",
    "fits with some left",
    "misses by one",
    "misses by more",
    "misses, but its place would not",
    "the first place",
    "the last place",
    "another place",
    "past the last row alone",
    "past the last column alone",
    "no rows",
    "no columns",
];

/// Notes a grid from a plain pointer that has a home: the ledger before it, and its number.
fn meet(met: &mut BTreeSet<&'static str>, before: &Ledger, call: Call, number: u32) {
    let Call::Grid { p, rows, columns, row, column } = call else { return };
    let Some(home) = before.home(p).filter(|_| p < MARK) else { return };
    let left = home.end() - i64::from(p) + 1;
    let bytes = i64::from(rows) * i64::from(columns);
    let place = i64::from(row) * i64::from(columns) + i64::from(column);
    let ways = [
        ("just fits", number == 0 && bytes == left),
        ("fits with some left", number == 0 && bytes < left),
        ("misses by one", number == 25 && bytes == left + 1),
        ("misses by more", number == 25 && bytes > left + 1),
        ("misses, but its place would not", number == 25 && place > 0 && place < left),
        ("the first place", number == 0 && bytes > 1 && place == 0),
        ("the last place", number == 0 && bytes > 1 && place == bytes - 1),
        ("another place", number == 0 && row > 0 && column > 0 && rows != columns && place < bytes - 1),
        ("past the last row alone", number == 30 && row == rows && column < columns),
        ("past the last column alone", number == 30 && column == columns && row < rows),
        ("no rows", number == 30 && rows == 0),
        ("no columns", number == 30 && columns == 0),
    ];
    met.extend(ways.into_iter().filter(|(_, met)| *met).map(|(way, _)| way));
}

#[test]
fn random_calls_meet_grids_in_every_way() {
    let rng = &mut Rng::seeded("random_calls_meet_grids_in_every_way");
    let mut met = BTreeSet::new();
    for _ in 0..10_000 * times() {
        let m = rng.within(5, 9);
        let table = random::sound_table(rng, m);
        let before = ledger(&vec![0; 1 << m], &table, m);
        for _ in 0..8 {
            let call = random::call(rng, &table, m, &[]);
            let number = before.clone().feed(call).number;
            meet(&mut met, &before, call, number);
        }
    }
    assert_eq!(met, WAYS.into());
}

#[test]
fn random_takes_meet_grids_in_every_way() {
    let rng = &mut Rng::seeded("random_takes_meet_grids_in_every_way");
    let mut met = BTreeSet::new();
    for _ in 0..4_000 * times() {
        let m = rng.within(5, 9);
        let file = random::file(rng, m, 120);
        each_call(&file, m, |before, call, number| meet(&mut met, before, call, number));
    }
    assert_eq!(met, WAYS.into());
}
