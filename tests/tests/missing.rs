//! Request 6 of document 02: an address outside the arena (27) is told from a free slot (22), in every call that needs a
//! home, and a marked pointer by the address that its home is sought at.

use std::collections::BTreeSet;
use tulivombe_tests::call::Call;
use tulivombe_tests::ledger::{sought, Ledger};
use tulivombe_tests::literal::Literal;
use tulivombe_tests::plain::heap::{BASE, MARK};
use tulivombe_tests::plain::takes::VERSION;
use tulivombe_tests::random::{self, append, times, Rng};
use tulivombe_tests::record::Record;
use tulivombe_tests::subject::{Answer, Caller, Part, Plain, Subject};

const FREE: u32 = 22;
const OUTSIDE: u32 = 27;

/// A heap of 2^m bytes whose first 16 are a block; all others are free.
struct Heap {
    arena: Vec<u8>,
    table: Vec<u8>,
    end: u32,
}

impl Heap {
    fn new<S: Subject>(m: u32) -> Heap {
        let (mut arena, mut table) = (vec![0x5A; 1 << m], vec![0x5A; 1 << (m - 4)]);
        S::fresh(&mut arena, &mut table);
        assert_eq!(S::get(&mut arena, &mut table, 16), Answer { number: 0, value: BASE });
        Heap { arena, table, end: BASE + (1 << m) }
    }

    /// What a pointer is refused with whose home is sought at an address.
    fn number(&self, address: i64) -> u32 {
        if address < i64::from(BASE) || address >= i64::from(self.end) {
            OUTSIDE
        } else if address >= i64::from(BASE) + 16 {
            FREE
        } else {
            0
        }
    }

    /// The call's number, on buffers that it must leave as they are where it is refused.
    fn made<S: Subject>(&self, call: Call) -> u32 {
        let (mut arena, mut table) = (self.arena.clone(), self.table.clone());
        let Answer { number, value } = call.make::<S>(&mut arena, &mut table);
        let unchanged = arena == self.arena && table == self.table && value == 0;
        assert!(number == 0 || unchanged, "{}: {call:?}, refused {number}", S::NAME);
        number
    }

    /// Every call with a plain pointer, and the two that are in no list.
    fn all_calls<S: Subject>(&self, p: u32) {
        let number = self.number(i64::from(p));
        let what = format!("{}: {p} in {} bytes", S::NAME, self.arena.len());
        let given = if p == BASE || number != 0 { number } else { 23 };
        assert_eq!(self.made::<S>(Call::Give { p }), given, "{what}: give");
        let calls = [
            Call::Step { p, i: 0 },
            Call::Read { p, w: 1 },
            Call::Write { p, w: 1, v: 9 },
            Call::Left { p },
            Call::Copy { p, q: p, n: 1 },
            Call::Fill { p, v: 9, n: 0 },
            Call::Lock { p },
            Call::Unlock { p },
            Call::Grid { p, rows: 1, columns: 1, row: 0, column: 0 },
        ];
        calls.into_iter().for_each(|call| assert_eq!(self.made::<S>(call), number, "{what}: {call:?}"));
        let checked = Answer { number, value: u32::from(number == 0) };
        assert_eq!(S::check(&self.arena, &self.table, p, 0), checked, "{what}: check");
        let (offset, length) = if number == 0 { (p - BASE, BASE + 16 - p) } else { (0, 0) };
        assert_eq!(S::show(&self.arena, &self.table, p), Part { number, offset, length }, "{what}: show");
    }
}

/// Addresses at which the arena, its one block or all addresses begin and end.
fn plain_pointers(end: u32) -> [u32; 12] {
    [0, 1, BASE - 16, BASE - 1, BASE, BASE + 15, BASE + 16, end - 1, end, end + 15, 2 * end, MARK - 1]
}

/// Addresses of marked pointers, each with the one that its home is sought at: 16 less in the first half of a slot, 16
/// more in the second.
fn marked_pointers(end: u32) -> [(u32, i64); 24] {
    let (first, past, last) = (i64::from(BASE), i64::from(end), i64::from(MARK) - 1);
    [
        (0, -16),
        (7, -9),
        (8, 24),
        (15, 31),
        (16, 0),
        (BASE - 17, first - 1),
        (BASE - 16, first - 32),
        (BASE - 9, first - 25),
        // from 8 before the arena on it is sought in the first slot
        (BASE - 8, first + 8),
        (BASE - 1, first + 15),
        (BASE, first - 16),
        (BASE + 7, first - 9),
        (BASE + 8, first + 24),
        (BASE + 16, first),
        (end - 17, past - 1),
        (end - 9, past - 25),
        (end - 8, past + 8),
        (end - 1, past + 15),
        // up to 7 past the arena it is sought in the last slot
        (end, past - 16),
        (end + 7, past - 9),
        (end + 8, past + 24),
        (end + 16, past),
        (MARK - 9, last - 24),
        (MARK - 1, last + 16),
    ]
}

/// A marked pointer is judged where it is sought. One with a home is accepted by step alone.
fn marked<S: Subject>(heap: &Heap, address: u32, sought_at: i64) {
    let p = address | MARK;
    assert_eq!(sought(p), sought_at, "{address} marked");
    let i = (sought_at - i64::from(address)) as u32;
    let what = format!("{}: {address} marked, in {} bytes", S::NAME, heap.arena.len());
    let number = heap.number(sought_at);
    assert_eq!(heap.made::<S>(Call::Step { p, i }), number, "{what}");
    assert_eq!(heap.made::<S>(Call::Left { p }), if number == 0 { 13 } else { number }, "{what}: left");
    assert_eq!(heap.made::<S>(Call::Copy { p: heap.end, q: p, n: 1 }), OUTSIDE, "{what}: copy");
}

/// In copy one outside address is enough, and then one free slot, whichever pointer it is.
fn copies<S: Subject>(heap: &Heap) {
    let pointers = [BASE, BASE + 15, BASE + 16, heap.end - 1, BASE - 1, heap.end, 0];
    for (p, q) in pointers.iter().flat_map(|&p| pointers.map(|q| (p, q))) {
        let both = [p, q].map(|pointer| heap.number(i64::from(pointer)));
        let expected = [OUTSIDE, FREE, 0].into_iter().find(|number| both.contains(number));
        let number = heap.made::<S>(Call::Copy { p, q, n: 1 });
        assert_eq!(Some(number), expected, "{}: copy to {p} from {q}", S::NAME);
    }
}

/// What the arguments are refused with, and damage, come before both kinds.
fn judged_before<S: Subject>(mut heap: Heap) {
    for p in [BASE - 1, heap.end, BASE + 16] {
        assert_eq!(heap.made::<S>(Call::Read { p, w: 3 }), 11, "{}", S::NAME);
        assert_eq!(heap.made::<S>(Call::Write { p, w: 3, v: 256 }), 11, "{}", S::NAME);
        assert_eq!(heap.made::<S>(Call::Write { p, w: 1, v: 256 }), 12, "{}", S::NAME);
        assert_eq!(heap.made::<S>(Call::Grid { p, rows: 2, columns: 2, row: 2, column: 0 }), 30, "{}", S::NAME);
        assert_eq!(S::left(&heap.arena, &heap.table[1..], p).number, 8, "{}", S::NAME);
    }
    *heap.table.last_mut().expect("a table has slots") = 3;
    for p in [BASE - 1, heap.end, BASE + 16] {
        assert_eq!(heap.made::<S>(Call::Left { p }), 20, "{}", S::NAME);
        assert_eq!(heap.made::<S>(Call::Step { p: p | MARK, i: 0 }), 20, "{}", S::NAME);
        assert_eq!(heap.made::<S>(Call::Copy { p, q: BASE, n: 1 }), 20, "{}", S::NAME);
        assert_eq!(heap.made::<S>(Call::Grid { p, rows: 1, columns: 1, row: 0, column: 0 }), 20, "{}", S::NAME);
        assert_eq!(S::check(&heap.arena, &heap.table, p, 0).number, 20, "{}", S::NAME);
        assert_eq!(S::show(&heap.arena, &heap.table, p).number, 20, "{}", S::NAME);
    }
}

/// A register that was never set is outside; a block given back is a free slot. A number that a take reads out of a
/// block may be any pointer.
fn in_takes<S: Subject>(m: u32) {
    let end = BASE + (1 << m);
    let records = [
        (Record::Give { a: 0 }, 27),
        (Record::Get { d: 0, n: 16 }, 0),
        (Record::Write { a: 0, w: 4, v: end }, 0),
        (Record::Read { d: 1, a: 0, w: 4 }, 0),
        (Record::Left { d: 2, a: 1 }, 27),
        (Record::Grid { d: 2, a: 1, rows: 1, columns: 1, row: 0, column: 0 }, 27),
        (Record::Write { a: 0, w: 4, v: end - 1 }, 0),
        (Record::Read { d: 2, a: 0, w: 4 }, 0),
        (Record::Left { d: 3, a: 2 }, 22),
        (Record::Grid { d: 3, a: 2, rows: 255, columns: 255, row: 0, column: 0 }, 22),
        (Record::Grid { d: 3, a: 2, rows: 255, columns: 255, row: 255, column: 0 }, 30),
        (Record::Copy { d: 3, a: 1, b: 2, n: 1 }, 27),
        (Record::Copy { d: 3, a: 2, b: 1, n: 1 }, 27),
        (Record::Copy { d: 3, a: 0, b: 2, n: 1 }, 22),
        (Record::Step { d: 4, a: 0, i: 8u32.wrapping_neg() }, 0),
        (Record::Read { d: 3, a: 4, w: 1 }, 13),
        (Record::Give { a: 0 }, 0),
        (Record::Give { a: 0 }, 22),
        // sought where the block was
        (Record::Step { d: 3, a: 4, i: 8 }, 22),
        (Record::Fill { d: 3, a: 3, v: 1, n: 1 }, 27),
    ];
    let mut file = vec![VERSION, m as u8];
    records.iter().for_each(|&(record, _)| append(&mut file, record));
    for caller in [Caller::Upload, Caller::Panel] {
        let (mut arena, mut table) = (vec![0x5A; 1 << m], vec![0x5A; 1 << (m - 4)]);
        let mut answers = vec![0x5A; 5 * records.len()];
        let ran = caller.run::<S>(&file, &mut arena, &mut table, &mut answers, records.len() as u32);
        assert_eq!((ran.number, ran.count as usize), (0, records.len()));
        for ((record, number), answer) in records.iter().zip(answers.chunks_exact(5)) {
            assert_eq!(u32::from(answer[0]), *number, "{}, m = {m}: {record:?}", S::NAME);
        }
    }
}

/// All of it in heaps up to order `largest`.
fn all<S: Subject>(largest: u32) {
    for m in 5..=largest {
        let heap = Heap::new::<S>(m);
        for p in plain_pointers(heap.end) {
            heap.all_calls::<S>(p);
        }
        for (address, sought_at) in marked_pointers(heap.end) {
            marked::<S>(&heap, address, sought_at);
        }
        copies::<S>(&heap);
        judged_before::<S>(heap);
        in_takes::<S>(m);
    }
}

#[test]
fn plain() {
    all::<Plain>(16);
}

/// The ledger's damage scan takes the square of the table's length.
#[test]
fn literal() {
    all::<Literal>(12);
}

#[cfg(feature = "library")]
#[test]
fn library() {
    all::<tulivombe_tests::library::Library>(16);
}

/// Where a pointer leads: marked or not, and the address that its home is sought at negative, outside, free or not.
fn kind(ledger: &Ledger, p: u32) -> (bool, &'static str) {
    let place = match ledger.home(p) {
        Some(_) => "home",
        None if sought(p) < 0 => "negative",
        None if ledger.outside(p) => "outside",
        None => "free",
    };
    (p >= MARK, place)
}

/// The random tests draw pointers of every kind and, for copy, every pair of plain ones, and the edges of the arena.
#[test]
fn random_calls_have_pointers_of_every_kind() {
    let rng = &mut Rng::seeded("random_calls_have_pointers_of_every_kind");
    let (mut kinds, mut pairs, mut drawn) = (BTreeSet::new(), BTreeSet::new(), BTreeSet::new());
    // so large that the edges are not drawn by chance
    let m = 12;
    let mut ledger = Ledger::new(m);
    let p = ledger.feed(Call::Get { n: 20 }).value;
    // half the arena is taken, so that a pair of any two kinds is drawn by chance
    (0..30).for_each(|_| assert_eq!(ledger.feed(Call::Get { n: 64 }).number, 0));
    ledger.feed(Call::Give { p });
    let table = ledger.table();
    for _ in 0..100_000 * times() {
        let pointers = random::call(rng, &table, m, &[]).pointers();
        let met: Vec<_> = pointers.iter().map(|&p| kind(&ledger, p)).collect();
        drawn.extend(pointers);
        kinds.extend(met.iter().copied());
        if let [(false, p), (false, q)] = met[..] {
            pairs.insert((p, q));
        }
    }
    let places = ["home", "free", "outside"];
    let mut expected: BTreeSet<_> = places.iter().flat_map(|&place| [(false, place), (true, place)]).collect();
    expected.insert((true, "negative"));
    assert_eq!(kinds, expected);
    assert_eq!(pairs, places.iter().flat_map(|&p| places.map(|q| (p, q))).collect());
    let end = BASE + (1 << m);
    let edges = [BASE - 1, BASE, end - 1, end].into_iter();
    let marked = marked_pointers(end).into_iter().map(|(address, _)| address | MARK);
    edges.chain(marked).for_each(|p| assert!(drawn.contains(&p), "{p} was not drawn"));
}
