//! Two implementations on the same random input: answers, buffers and guard bytes must be equal.

use crate::call::Call;
use crate::lent::Lent;
use crate::literal::{self, Between};
use crate::plain::runner::MOST_STEPS;
use crate::plain::takes;
use crate::plain_c::PlainC;
use crate::random::{self, Rng};
use crate::record::Record;
use crate::subject::{Answer, Caller, Plain, Ran, Subject};
use std::collections::{BTreeMap, BTreeSet};

/// The numbers that each call, by its name, was answered with.
pub type Met = BTreeMap<&'static str, BTreeSet<u32>>;

/// How often each call was answered with each number.
#[derive(Default)]
pub struct Tally(BTreeMap<(&'static str, u32), u32>);

impl Tally {
    fn count(&mut self, call: &'static str, number: u32) {
        *self.0.entry((call, number)).or_default() += 1;
    }

    pub fn total(&self) -> u32 {
        self.0.values().sum()
    }

    pub fn met(&self) -> Met {
        let mut met = Met::new();
        for &(call, number) in self.0.keys() {
            met.entry(call).or_default().insert(number);
        }
        met
    }
}

/// The heap of one case, lent to each of two implementations.
struct Case {
    arenas: [Lent; 2],
    tables: [Lent; 2],
}

impl Case {
    fn new(rng: &mut Rng, arena: &[u8], table: &[u8]) -> Case {
        let arena = Lent::new(rng, arena);
        let table = Lent::new(rng, table);
        Case { arenas: [arena.clone(), arena], tables: [table.clone(), table] }
    }

    /// A stranger writes one entry of the table.
    fn poke(&mut self, rng: &mut Rng, m: u32) {
        let slots = self.tables[0].bytes().len() as u32;
        if slots > 0 {
            let at = rng.below(slots) as usize;
            let entry = random::foreign_entry(rng, m, self.tables[0].bytes()[at]);
            self.tables.iter_mut().for_each(|table| table.bytes_mut()[at] = entry);
        }
    }

    fn compare(&self, what: &str) {
        same_buffer("arena", &self.arenas, what);
        same_buffer("table", &self.tables, what);
    }
}

fn same_buffer(name: &str, pair: &[Lent; 2], what: &str) {
    if let Some(at) = pair[0].difference(&pair[1]) {
        panic!("{what}: the {name}s differ at {at} of {} bytes", pair[0].bytes().len());
    }
}

/// Buffers of an arena of order m; one case in eight has a wrong length.
pub fn buffers(rng: &mut Rng, m: u32) -> (Vec<u8>, Vec<u8>) {
    let mut arena = if rng.once_in(4) { vec![0; 1 << m] } else { rng.bytes(1 << m) };
    let mut table = random::any_table(rng, m);
    if rng.once_in(8) {
        let len = match rng.below(6) {
            0 => arena.len() - 1,
            1 => arena.len() + rng.within(1, 16) as usize,
            2 => arena.len() / 2,
            3 => rng.below(70) as usize,
            4 => rng.pick(&[0, 1, 16, 131_072]),
            _ => arena.len(),
        };
        arena.resize(len, 7);
        let len = match rng.below(4) {
            0 => table.len() - 1,
            1 => table.len() + 1,
            2 => arena.len() / 16,
            _ => table.len(),
        };
        table.resize(len, 0);
    }
    (arena, table)
}

/// Random lists of direct calls, fresh, check and show on any buffers.
pub fn calls<A: Subject, B: Subject>(rng: &mut Rng, lists: u32, largest: u32) -> Tally {
    call_lists(rng, lists, largest, &format!("{} and {}", A::NAME, B::NAME), one_call::<A, B>)
}

/// Random lists of the calls that plain C has, beside plain Rust, on any buffers.
pub fn plain_c_calls(rng: &mut Rng, lists: u32, largest: u32) -> Tally {
    call_lists(rng, lists, largest, "plain C and plain Rust", one_plain_c_call)
}

/// Makes one call on both heaps of an order, with pointers that are known, and gives its name and the answer's number.
type MakeOne = fn(&mut Rng, &mut Case, u32, &mut Vec<u32>, &str) -> (&'static str, u32);

fn call_lists(rng: &mut Rng, lists: u32, largest: u32, names: &str, make_one: MakeOne) -> Tally {
    let mut tally = Tally::default();
    for list in 0..lists {
        let m = rng.arena_order(largest);
        let (arena, table) = buffers(rng, m);
        let mut heaps = Case::new(rng, &arena, &table);
        let mut known = Vec::new();
        let length = if m > 10 { 8 } else { rng.within(1, 40) };
        for index in 0..length {
            if rng.once_in(64) {
                heaps.poke(rng, m);
            }
            let what = format!("{names}, list {list}, call {index}, m = {m}");
            let (call, number) = make_one(rng, &mut heaps, m, &mut known, &what);
            tally.count(call, number);
            heaps.compare(&what);
        }
    }
    tally
}

fn one_call<A: Subject, B: Subject>(
    rng: &mut Rng,
    heaps: &mut Case,
    m: u32,
    known: &mut Vec<u32>,
    what: &str,
) -> (&'static str, u32) {
    let Case { arenas: [a0, a1], tables: [t0, t1] } = heaps;
    match rng.below(16) {
        0 if rng.once_in(3) => {
            let answers = [A::fresh(a0.bytes_mut(), t0.bytes_mut()), B::fresh(a1.bytes_mut(), t1.bytes_mut())];
            assert_eq!(answers[0], answers[1], "{what}: fresh");
            ("fresh", answers[0].number)
        }
        1 | 2 => {
            let h = random::pointer(rng, t0.bytes(), known);
            let i = random::distance(rng, m);
            let answers = [A::check(a0.bytes(), t0.bytes(), h, i), B::check(a1.bytes(), t1.bytes(), h, i)];
            assert_eq!(answers[0], answers[1], "{what}: check {h} {i}");
            ("check", answers[0].number)
        }
        3 => {
            let p = random::pointer(rng, t0.bytes(), known);
            let parts = [A::show(a0.bytes(), t0.bytes(), p), B::show(a1.bytes(), t1.bytes(), p)];
            assert_eq!(parts[0], parts[1], "{what}: show {p}");
            ("show", parts[0].number)
        }
        _ => {
            let call = random::call(rng, t0.bytes(), m, known);
            let answers =
                [call.make::<A>(a0.bytes_mut(), t0.bytes_mut()), call.make::<B>(a1.bytes_mut(), t1.bytes_mut())];
            agreed(call, answers, known, what)
        }
    }
}

fn one_plain_c_call(rng: &mut Rng, heaps: &mut Case, m: u32, known: &mut Vec<u32>, what: &str) -> (&'static str, u32) {
    let Case { arenas: [a0, a1], tables: [t0, t1] } = heaps;
    let p = random::pointer(rng, t0.bytes(), known);
    let n = random::amount(rng, m);
    let i = random::distance(rng, m);
    let call = rng.pick(&[Call::Get { n }, Call::Give { p }, Call::Step { p, i }, Call::Left { p }]);
    let first = match call {
        Call::Get { n } => PlainC::get(a0.bytes_mut(), t0.bytes_mut(), n),
        Call::Give { p } => PlainC::give(a0.bytes(), t0.bytes_mut(), p),
        Call::Step { p, i } => PlainC::step(a0.bytes(), t0.bytes(), p, i),
        _ => PlainC::left(a0.bytes(), t0.bytes(), p),
    };
    let second = call.make::<Plain>(a1.bytes_mut(), t1.bytes_mut());
    agreed(call, [first, second], known, what)
}

/// A call's name and the number of two answers to it, which must be equal; a pointer that it gave is known from now on.
fn agreed(call: Call, answers: [Answer; 2], known: &mut Vec<u32>, what: &str) -> (&'static str, u32) {
    assert_eq!(answers[0], answers[1], "{what}: {call:?}");
    if let (Call::Get { .. } | Call::Step { .. } | Call::Grid { .. }, 0) = (call, answers[0].number) {
        known.push(answers[0].value);
    }
    (call.name(), answers[0].number)
}

/// What random runs met.
#[derive(Default)]
pub struct Runs {
    pub numbers: Tally,
    /// Of the records that were carried out.
    pub records: Tally,
    pub ways: BTreeSet<&'static str>,
}

/// All ways that random runs must meet: how they come to an end, and what their repeats do.
pub const WAYS: [&str; 8] = [
    "ended with the budget spent",
    "ended with some left",
    "stopped",
    "stopped at once",
    "stopped at 4,096 with more allowed",
    "answers that miss by one",
    "went back",
    "again at 0",
];

/// Random and broken files, run by the caller on buffers that fit or not, with any budget.
pub fn runs<A: Subject, B: Subject>(rng: &mut Rng, caller: Caller, files: u32, largest: u32) -> Runs {
    let mut met = Runs::default();
    for index in 0..files {
        let m = rng.arena_order(largest);
        let most = rng.pick(&[0, 4, 30, 120]);
        let file = random::file(rng, m, most);
        let (arena, table) = buffers(rng, m);
        let mut heaps = Case::new(rng, &arena, &table);
        let budget = random::budget(rng, steps(&file));
        let out = answer_slice(rng, 5 * budget.min(4_096) as usize);
        let mut answers = [out.clone(), out];
        let lent = Lent::new(rng, &file);
        let before = lent.clone();
        let Case { arenas: [a0, a1], tables: [t0, t1] } = &mut heaps;
        let [o0, o1] = &mut answers;
        let first = caller.run::<A>(lent.bytes(), a0.bytes_mut(), t0.bytes_mut(), o0.bytes_mut(), budget);
        let second = caller.run::<B>(lent.bytes(), a1.bytes_mut(), t1.bytes_mut(), o1.bytes_mut(), budget);
        let what = format!("{} and {}, run {index}, {caller:?}, budget {budget}, file {file:02x?}", A::NAME, B::NAME);
        assert_eq!(first, second, "{what}");
        heaps.compare(&what);
        same_buffer("answer slice", &answers, &what);
        assert_eq!(lent.difference(&before), None, "{what}: the file changed");
        met.run(&file, budget, first, answers[0].bytes());
    }
    met
}

/// How many records of a file plain Rust carries out at most, 0 where it is refused.
fn steps(file: &[u8]) -> u32 {
    let Ok((m, _)) = takes::judge(file) else { return 0 };
    let (mut arena, mut table) = (vec![0; 1 << m], vec![0; 1 << (m - 4)]);
    Plain::run(file, &mut arena, &mut table, &mut [0; 5 * MOST_STEPS], u32::MAX).count
}

impl Runs {
    fn run(&mut self, file: &[u8], budget: u32, ran: Ran, answers: &[u8]) {
        self.numbers.count("run", ran.number);
        let way = match (ran.number, ran.stopped, ran.count) {
            (0, false, count) if count > 0 && count == budget => Some("ended with the budget spent"),
            (0, false, count) if count < budget => Some("ended with some left"),
            (0, true, 0) => Some("stopped at once"),
            (0, true, 4_096) if budget > 4_096 => Some("stopped at 4,096 with more allowed"),
            (0, true, _) => Some("stopped"),
            (9, _, _) if answers.len() + 1 == 5 * budget as usize => Some("answers that miss by one"),
            _ => None,
        };
        self.ways.extend(way);
        self.records(file, answers.chunks_exact(5).take(ran.count as usize));
    }

    /// Goes through the records that were carried out, each with its answer's bytes.
    fn records<'a>(&mut self, file: &[u8], answers: impl Iterator<Item = &'a [u8]>) {
        let (records, mut between) = (literal::records(file), Between::first());
        for answer in answers {
            let (index, record) = (between.due, records[between.due]);
            let value = answer[1..].iter().fold(0, |value, &byte| value << 8 | u32::from(byte));
            let answer = Answer { number: u32::from(answer[0]), value };
            assert_eq!(between.carry_out(record, |_| answer), answer, "record {index}, {record:?} of {file:02x?}");
            self.records.count(record.name(), answer.number);
            if let Record::Again { .. } = record {
                self.ways.insert(if between.due <= index { "went back" } else { "again at 0" });
            }
        }
    }
}

/// A slice for answers: as long as needed, or a little shorter or longer.
fn answer_slice(rng: &mut Rng, needed: usize) -> Lent {
    let room = match rng.below(8) {
        0 => needed.saturating_sub(rng.within(1, 5) as usize),
        1 => needed + rng.within(1, 20) as usize,
        _ => needed,
    };
    let content = rng.bytes(room);
    Lent::new(rng, &content)
}

/// Random lists of calls as bytes, replayed on buffers that fit or not.
pub fn replays<A: Subject, B: Subject>(rng: &mut Rng, lists: u32, largest: u32) -> Tally {
    let mut tally = Tally::default();
    for index in 0..lists {
        let m = rng.arena_order(largest);
        let (arena, table) = buffers(rng, m);
        let layout = random::sound_table(rng, m);
        let mut list = Vec::new();
        for _ in 0..rng.within(0, 30) {
            list.extend_from_slice(&random::call(rng, &layout, m, &[]).encode());
        }
        if rng.once_in(6) && !list.is_empty() {
            let at = rng.below(list.len() as u32) as usize;
            list[at / 14 * 14] = rng.pick(&[0, 1, 10, 11, 12, 13, 14, 255]);
        }
        if rng.once_in(8) {
            list.resize(list.len() + rng.within(1, 13) as usize, 1);
        }
        let room = (list.len() / 14 * 5 + rng.below(8) as usize).saturating_sub(rng.pick(&[0, 0, 0, 3]));
        let content = rng.bytes(room);
        let out = Lent::new(rng, &content);
        let mut outs = [out.clone(), out];
        let mut heaps = Case::new(rng, &arena, &table);
        let calls = Lent::new(rng, &list);
        let Case { arenas: [a0, a1], tables: [t0, t1] } = &mut heaps;
        let [o0, o1] = &mut outs;
        let first = A::replay(a0.bytes_mut(), t0.bytes_mut(), calls.bytes(), o0.bytes_mut());
        let second = B::replay(a1.bytes_mut(), t1.bytes_mut(), calls.bytes(), o1.bytes_mut());
        let what = format!("{} and {}, replay {index}, calls {list:02x?}", A::NAME, B::NAME);
        assert_eq!(first, second, "{what}");
        heaps.compare(&what);
        same_buffer("output", &outs, &what);
        tally.count("replay", first);
    }
    tally
}

/// The reader on random bytes and on files, at any place.
pub fn reader<A: Subject, B: Subject>(rng: &mut Rng, files: u32) {
    for _ in 0..files {
        let m = rng.arena_order(16);
        let file = if rng.once_in(3) {
            let len = rng.below(40) as usize;
            (0..len).map(|_| if rng.once_in(4) { rng.byte() } else { rng.below(18) as u8 }).collect()
        } else {
            random::file(rng, m, 6)
        };
        let lent = Lent::new(rng, &file);
        let far = [usize::MAX, usize::MAX - 1, 1 << 32, (1 << 32) + 2, 1 << 63];
        for at in (0..file.len() + 3).chain(far) {
            let places = [A::read_record(lent.bytes(), at), B::read_record(lent.bytes(), at)];
            assert_eq!(places[0], places[1], "{} and {}: reader at {at} of {file:02x?}", A::NAME, B::NAME);
        }
    }
}

/// The writer on random records, good registers or not, and slices that are long enough or not.
pub fn writer<A: Subject, B: Subject>(rng: &mut Rng, records: u32) {
    for _ in 0..records {
        let record = spoiled(rng);
        let room = rng.below(14) as usize;
        let content = rng.bytes(room);
        let out = Lent::new(rng, &content);
        let mut outs = [out.clone(), out];
        let m = if rng.once_in(4) { rng.pick(&[256, 261, 266, 65_541, u32::MAX]) } else { rng.below(20) };
        let [o0, o1] = &mut outs;
        let (answers, what) = if rng.once_in(8) {
            ([A::write_head(o0.bytes_mut(), m), B::write_head(o1.bytes_mut(), m)], format!("head {m}"))
        } else {
            let answers = [A::write_record(o0.bytes_mut(), record), B::write_record(o1.bytes_mut(), record)];
            (answers, format!("{record:?}"))
        };
        assert_eq!(answers[0], answers[1], "{} and {}: writer, {what}, room {room}", A::NAME, B::NAME);
        same_buffer("output", &outs, &what);
    }
}

/// A record with any register bytes, width and values.
fn spoiled(rng: &mut Rng) -> Record {
    let mut register = || if rng.once_in(6) { rng.pick(&[16, 17, 128, 255]) } else { rng.below(16) as u8 };
    let (d, a, b) = (register(), register(), register());
    match random::record(rng, 8, 16) {
        Record::Get { n, .. } => Record::Get { d, n },
        Record::Give { .. } => Record::Give { a },
        Record::Step { i, .. } => Record::Step { d, a, i },
        Record::Read { w, .. } => Record::Read { d, a, w },
        Record::Write { w, v, .. } => Record::Write { a, w, v },
        Record::Left { .. } => Record::Left { d, a },
        Record::Copy { n, .. } => Record::Copy { d, a, b, n },
        Record::Fill { v, n, .. } => Record::Fill { d, a, v, n },
        Record::Lock { .. } => Record::Lock { a },
        Record::Unlock { .. } => Record::Unlock { a },
        Record::Again { k, .. } => Record::Again { d, k },
        Record::Set { n, .. } => Record::Set { d, n },
        Record::Grid { rows, columns, row, column, .. } => Record::Grid { d, a, rows, columns, row, column },
    }
}

/// Records written after a head read back as themselves, and an accepted file writes back as its bytes.
pub fn round_trips<S: Subject>(rng: &mut Rng, files: u32) {
    for _ in 0..files {
        let m = rng.arena_order(16);
        let file = random::file(rng, m, 40);
        let Ok((_, count)) = takes::judge(&file) else {
            continue;
        };
        let mut out = vec![0xA5; file.len() + 4];
        let mut to = S::write_head(&mut out, u32::from(file[1])).value as usize;
        let mut at = 2;
        for _ in 0..count {
            let (record, next) = S::read_record(&file, at).expect("the file was accepted");
            at = next;
            let answer = S::write_record(&mut out[to..], record);
            assert_eq!(answer.number, 0, "{}: {record:?}", S::NAME);
            to += answer.value as usize;
        }
        assert_eq!((at, to), (file.len(), file.len()), "{}: {file:02x?}", S::NAME);
        assert_eq!(out[..to], file, "{}", S::NAME);
        assert_eq!(out[to..], [0xA5; 4], "{}", S::NAME);
    }
}
