//! Request 8 of document 02: a marked pointer is refused 13 only after 20, 27 and 22, in every call but step. So of one
//! whose block is gone that is told first, and one whose block is there is 13 as ever, locked or not.

use std::collections::BTreeSet;
use tulivombe_tests::call::Call;
use tulivombe_tests::ledger::{can_refuse_records, damaged, sought, Ledger};
use tulivombe_tests::literal::{each_call, ledger, Literal};
use tulivombe_tests::plain::heap::{BASE, LOCK, MARK};
use tulivombe_tests::plain::runner::SCREENFUL;
use tulivombe_tests::plain::takes::VERSION;
use tulivombe_tests::random::{self, append, times, Rng};
use tulivombe_tests::record::Record;
use tulivombe_tests::subject::{Answer, Caller, Part, Plain, Subject};

/// A heap of 2^m bytes, m from 6 up: a block of 16 bytes, one of 16 that is locked, and all others free, the first 16 of
/// them given back.
#[derive(Clone)]
struct Heap {
    arena: Vec<u8>,
    table: Vec<u8>,
    end: u32,
}

impl Heap {
    fn new<S: Subject>(m: u32) -> Heap {
        let (mut arena, mut table) = (vec![0x5A; 1 << m], vec![0x5A; 1 << (m - 4)]);
        S::fresh(&mut arena, &mut table);
        for value in [BASE, BASE + 16, BASE + 32] {
            assert_eq!(S::get(&mut arena, &mut table, 16), Answer { number: 0, value });
        }
        assert_eq!(S::lock(&arena, &mut table, BASE + 16).number, 0);
        assert_eq!(S::give(&arena, &mut table, BASE + 32).number, 0);
        Heap { arena, table, end: BASE + (1 << m) }
    }

    /// Pointers whose homes are sought in the first block. The address of the last two lies in the second.
    fn live(&self) -> Vec<u32> {
        marked([BASE - 8, BASE - 1, BASE + 16, BASE + 23])
    }

    /// In the locked block. The address of the first two lies in the first.
    fn locked(&self) -> Vec<u32> {
        marked([BASE + 8, BASE + 15, BASE + 32, BASE + 39])
    }

    /// At a free slot: given back, or the arena's last. The address of the first lies in the locked block, that of the
    /// last past the arena.
    fn free(&self) -> Vec<u32> {
        marked([BASE + 24, BASE + 31, BASE + 48, self.end - 24, self.end, self.end + 7])
    }

    /// At negative addresses, and below and above the arena. BASE lies in the first block.
    fn outside(&self) -> Vec<u32> {
        let below = marked([0, 7, 8, BASE - 9, BASE - 16, BASE, BASE + 7]);
        let above = marked([self.end - 8, self.end - 1, self.end + 8, self.end + 16, MARK - 9, MARK - 1]);
        [below, above].concat()
    }

    /// All of them, with the number that each is refused with on a good table.
    fn pointers(&self) -> Vec<(u32, u32)> {
        let kinds = [(self.live(), 13), (self.locked(), 13), (self.free(), 22), (self.outside(), 27)];
        kinds.into_iter().flat_map(|(pointers, number)| pointers.into_iter().map(move |p| (p, number))).collect()
    }

    /// The call's number, on buffers that it must leave as they are where it is refused.
    fn made<S: Subject>(&self, call: Call) -> u32 {
        let (mut arena, mut table) = (self.arena.clone(), self.table.clone());
        let Answer { number, value } = call.make::<S>(&mut arena, &mut table);
        let unchanged = arena == self.arena && table == self.table && value == 0;
        assert!(number == 0 || unchanged, "{}: {call:?}, refused {number}", S::NAME);
        number
    }

    fn answers<S: Subject>(&self, call: Call, number: u32) {
        assert_eq!(self.made::<S>(call), number, "{}: {call:?}, {} bytes", S::NAME, self.arena.len());
    }

    /// That each call that has 13 refuses p with this number, where nothing else could; the two in no list too.
    fn all_refuse<S: Subject>(&self, p: u32, number: u32) {
        let calls = [
            Call::Give { p },
            Call::Read { p, w: 4 },
            Call::Write { p, w: 4, v: u32::MAX },
            Call::Left { p },
            Call::Copy { p, q: BASE, n: 1 },
            Call::Copy { p: BASE, q: p, n: 1 },
            Call::Copy { p, q: p, n: 0 },
            Call::Fill { p, v: 9, n: 0 },
            Call::Lock { p },
            Call::Unlock { p },
            Call::Grid { p, rows: 1, columns: 1, row: 0, column: 0 },
            Call::Grid { p, rows: 255, columns: 255, row: 254, column: 254 },
        ];
        calls.into_iter().for_each(|call| self.answers::<S>(call, number));
        let what = format!("{}: {p}, {} bytes", S::NAME, self.arena.len());
        for i in [0, 1, 16, MARK] {
            assert_eq!(S::check(&self.arena, &self.table, p, i), Answer { number, value: 0 }, "{what}: check {i}");
        }
        let nothing = Part { number, offset: 0, length: 0 };
        assert_eq!(S::show(&self.arena, &self.table, p), nothing, "{what}: show");
    }

    /// That what the arguments are refused with comes first.
    fn arguments_first<S: Subject>(&self, p: u32) {
        for w in [0, 3, 5, 255] {
            self.answers::<S>(Call::Read { p, w }, 11);
            self.answers::<S>(Call::Write { p, w, v: u32::MAX }, 11);
        }
        for (w, v) in [(1, 256), (2, 65_536)] {
            self.answers::<S>(Call::Write { p, w, v }, 12);
        }
        for (rows, columns) in [(0, 0), (0, 9), (9, 0), (3, 9), (9, 3)] {
            self.answers::<S>(Call::Grid { p, rows, columns, row: 3, column: 3 }, 30);
        }
    }
}

fn marked<const N: usize>(addresses: [u32; N]) -> Vec<u32> {
    addresses.map(|address| address | MARK).to_vec()
}

/// Every kind of marked pointer in every call, and in step, which has no 13: it leads back to the home, or tells how that
/// is missing.
fn on_a_good_table<S: Subject>(heap: &Heap) {
    for (p, number) in heap.pointers() {
        heap.all_refuse::<S>(p, number);
        heap.arguments_first::<S>(p);
        let i = (sought(p) - i64::from(p % MARK)) as u32;
        heap.answers::<S>(Call::Step { p, i }, if number == 13 { 0 } else { number });
        heap.answers::<S>(Call::Step { p, i: i.wrapping_mul(1_000) }, if number == 13 { 24 } else { number });
    }
}

/// A damaged table is told before all of it, wherever the damage is: in a block, in a free slot, or by a lock alone.
fn on_a_damaged_table<S: Subject>(heap: &Heap) {
    let last = heap.table.len() - 1;
    for (at, entry) in [(0, 3), (1, 5), (last, 5), (last, LOCK)] {
        let mut heap = heap.clone();
        heap.table[at] = entry;
        for (p, _) in heap.pointers() {
            heap.all_refuse::<S>(p, 20);
            heap.arguments_first::<S>(p);
            heap.answers::<S>(Call::Step { p, i: 0 }, 20);
        }
        heap.table.pop();
        heap.pointers().into_iter().for_each(|(p, _)| heap.all_refuse::<S>(p, 8));
    }
}

/// What a copy to a pointer of one kind (the row) from one of another (the column) is refused with. The kinds are live,
/// free and outside, first plain and then marked: the number decides, and not the pointer.
const COPIES: [[u32; 6]; 6] = [
    [0, 22, 27, 13, 22, 27],
    [22, 22, 27, 22, 22, 27],
    [27, 27, 27, 27, 27, 27],
    [13, 22, 27, 13, 22, 27],
    [22, 22, 27, 22, 22, 27],
    [27, 27, 27, 27, 27, 27],
];

fn copies<S: Subject>(heap: &Heap) {
    let plain = [vec![BASE, BASE + 15], vec![BASE + 32, heap.end - 1], vec![0, BASE - 1, heap.end, MARK - 1]];
    let kinds = [&plain[..], &[heap.live(), heap.free(), heap.outside()]].concat();
    for (to, row) in kinds.iter().zip(COPIES) {
        for (from, number) in kinds.iter().zip(row) {
            for (&p, &q) in to.iter().flat_map(|p| from.iter().map(move |q| (p, q))) {
                heap.answers::<S>(Call::Copy { p, q, n: 1 }, number);
                heap.answers::<S>(Call::Copy { p, q, n: 0 }, number);
            }
        }
    }
    // 28 is the last of all, whichever pointer is marked
    let (locked, n) = (BASE + 16, 1);
    for (from, number) in kinds.iter().zip([28, 22, 27, 13, 22, 27]) {
        from.iter().for_each(|&q| heap.answers::<S>(Call::Copy { p: locked, q, n }, number));
    }
    for (from, number) in kinds.iter().zip([13, 22, 27, 13, 22, 27]) {
        let pairs = heap.locked().into_iter().flat_map(|p| from.iter().map(move |&q| (p, q)));
        pairs.for_each(|(p, q)| heap.answers::<S>(Call::Copy { p, q, n }, number));
    }
}

/// Every record that has 13 with register a, refused with this number; register 1 has a live block.
fn with(a: u8, number: u32) -> Vec<(Record, u32)> {
    let records = [
        Record::Give { a },
        Record::Read { d: 3, a, w: 1 },
        Record::Write { a, w: 1, v: 9 },
        Record::Left { d: 3, a },
        Record::Copy { d: 3, a, b: 1, n: 1 },
        Record::Copy { d: 3, a: 1, b: a, n: 1 },
        Record::Fill { d: 3, a, v: 9, n: 0 },
        Record::Lock { a },
        Record::Unlock { a },
        Record::Grid { d: 3, a, rows: 1, columns: 1, row: 0, column: 0 },
    ];
    records.map(|record| (record, number)).to_vec()
}

/// A marked pointer in register 2 while its block is there, locked, given back, and another is got in its place; and one
/// in register 4 that was read out of a block.
fn records() -> Vec<(Record, u32)> {
    let first = [
        (Record::Get { d: 0, n: 16 }, 0),
        (Record::Get { d: 1, n: 16 }, 0),
        (Record::Step { d: 2, a: 0, i: 8u32.wrapping_neg() }, 0),
    ];
    let dead = [
        (Record::Read { d: 3, a: 2, w: 3 }, 11),
        (Record::Write { a: 2, w: 1, v: 256 }, 12),
        (Record::Grid { d: 3, a: 2, rows: 1, columns: 1, row: 0, column: 1 }, 30),
        (Record::Step { d: 3, a: 2, i: 8 }, 22),
        (Record::Copy { d: 3, a: 2, b: 0, n: 1 }, 22),
        (Record::Copy { d: 3, a: 0, b: 2, n: 1 }, 22),
        (Record::Copy { d: 3, a: 2, b: 15, n: 1 }, 27),
        (Record::Write { a: 1, w: 4, v: MARK }, 0),
        (Record::Read { d: 4, a: 1, w: 4 }, 0),
        (Record::Copy { d: 3, a: 4, b: 2, n: 1 }, 27),
        (Record::Step { d: 3, a: 4, i: 0 }, 27),
    ];
    let [lock, unlock, give] = [Record::Lock { a: 0 }, Record::Unlock { a: 0 }, Record::Give { a: 0 }];
    let locked = [vec![(lock, 0)], with(2, 13), vec![(unlock, 0), (give, 0)]].concat();
    let got_again = [vec![(Record::Get { d: 5, n: 16 }, 0)], with(2, 13)].concat();
    [first.to_vec(), with(2, 13), locked, with(2, 22), dead.to_vec(), with(4, 27), got_again].concat()
}

/// The records as a take, of which the panel gets as many as its screen can list.
fn in_takes<S: Subject>(m: u32) {
    let all = records();
    for (caller, records) in [(Caller::Upload, &all[..]), (Caller::Panel, &all[..SCREENFUL])] {
        let mut file = vec![VERSION, m as u8];
        records.iter().for_each(|&(record, _)| append(&mut file, record));
        let (mut arena, mut table) = (vec![0x5A; 1 << m], vec![0x5A; 1 << (m - 4)]);
        let mut answers = vec![0x5A; 5 * records.len()];
        let ran = caller.run::<S>(&file, &mut arena, &mut table, &mut answers, records.len() as u32);
        assert_eq!((ran.number, ran.count as usize), (0, records.len()), "{}, {caller:?}", S::NAME);
        for (k, ((record, number), answer)) in records.iter().zip(answers.chunks_exact(5)).enumerate() {
            assert_eq!(u32::from(answer[0]), *number, "{}, {caller:?}, m = {m}, record {k}: {record:?}", S::NAME);
        }
    }
}

/// All of it in heaps up to order `largest`.
fn all<S: Subject>(largest: u32) {
    for m in 6..=largest {
        let heap = Heap::new::<S>(m);
        on_a_good_table::<S>(&heap);
        on_a_damaged_table::<S>(&heap);
        copies::<S>(&heap);
        in_takes::<S>(m);
    }
}

#[test]
fn plain() {
    all::<Plain>(16);
}

/// The ledger's damage scan takes the square of the table's length.
#[test]
fn literal() {
    all::<Literal>(9);
}

#[cfg(feature = "library")]
#[test]
fn library() {
    all::<tulivombe_tests::library::Library>(16);
}

/// Two kinds beside those of COPIES: any marked pointer on a damaged table, and a marked p whose block is locked.
const DAMAGED: usize = 6;
const LOCKED: usize = 7;

/// The place of a pointer's kind in COPIES.
fn kind(before: &Ledger, p: u32) -> usize {
    let place = match before.home(p) {
        Some(_) => 0,
        None if before.outside(p) => 2,
        None => 1,
    };
    place + if p < MARK { 0 } else { 3 }
}

/// What was met where a call that has 13 is given a marked pointer: its name, the kinds of its pointers and its number.
type Met = BTreeSet<(&'static str, Vec<usize>, u32)>;

/// Whether the call has 13, and a marked pointer.
fn with_a_mark(call: Call) -> bool {
    call.name() != "step" && call.pointers().iter().any(|&p| p >= MARK)
}

/// Notes such a call on an undamaged table.
fn meet(met: &mut Met, before: &Ledger, call: Call, number: u32) {
    if with_a_mark(call) {
        let pointers = call.pointers();
        met.insert((call.name(), pointers.iter().map(|&p| kind(before, p)).collect(), number));
        if number == 13 && pointers[0] >= MARK && before.locked(pointers[0]) {
            met.insert((call.name(), vec![LOCKED], number));
        }
    }
}

/// The kinds that a call with a marked pointer can meet, each with the number that is then judged first.
fn kinds_of(name: &str) -> Vec<(Vec<usize>, u32)> {
    let one = [(vec![3], 13), (vec![4], 22), (vec![5], 27)];
    let two = (0..6).flat_map(|p| (0..6).map(move |q| (vec![p, q], COPIES[p][q])));
    let two = two.filter(|(kinds, _)| kinds.iter().any(|&kind| kind >= 3));
    if name == "copy" {
        two.collect()
    } else {
        one.to_vec()
    }
}

/// That each call meets a marked pointer of every kind, and with it what the arguments are refused with.
fn every_way() -> Met {
    let mut all = Met::new();
    for (name, numbers) in can_refuse_records().into_iter().filter(|(_, numbers)| numbers.contains(&13)) {
        for (kinds, number) in kinds_of(name).into_iter().chain([(vec![DAMAGED], 20)]) {
            let first = numbers.iter().copied().filter(|number| [11, 12, 30].contains(number));
            all.extend(first.chain([number]).map(|number| (name, kinds.clone(), number)));
        }
        all.insert((name, vec![LOCKED], 13));
    }
    all
}

#[test]
fn random_calls_meet_marked_pointers_in_every_way() {
    let rng = &mut Rng::seeded("random_calls_meet_marked_pointers_in_every_way");
    let mut met = Met::new();
    for _ in 0..40_000 * times() {
        let m = rng.within(5, 9);
        let (mut arena, table) = (vec![0; 1 << m], random::any_table(rng, m));
        let before = ledger(&arena, &table, m);
        for _ in 0..8 {
            let call = random::call(rng, &table, m, &[]);
            let number = call.make::<Plain>(&mut arena, &mut table.clone()).number;
            if !damaged(&table, m) {
                meet(&mut met, &before, call, number);
            } else if with_a_mark(call) {
                met.insert((call.name(), vec![DAMAGED], number));
            }
        }
    }
    assert_eq!(met, every_way());
}

/// In takes no table is damaged, and a copy with two marked pointers is rare.
#[test]
fn random_takes_meet_marked_pointers_in_every_way() {
    let rng = &mut Rng::seeded("random_takes_meet_marked_pointers_in_every_way");
    let (mut met, mut expected) = (Met::new(), every_way());
    for _ in 0..12_000 * times() {
        let m = rng.within(5, 9);
        let file = random::file(rng, m, 120);
        each_call(&file, m, |before, call, number| meet(&mut met, before, call, number));
    }
    assert!(met.is_subset(&expected), "{met:?}");
    expected.retain(|(_, kinds, _)| kinds.iter().filter(|&&kind| (3..DAMAGED).contains(&kind)).count() < 2);
    expected.retain(|(_, kinds, _)| *kinds != [DAMAGED]);
    assert_eq!(expected.difference(&met).collect::<Vec<_>>(), Vec::<&(_, _, _)>::new());
}
