//! Request 9 of document 02: the budget of a run, the answer slice that it asks for, when a run stopped, and that a larger
//! budget alters no earlier answer. tests/repeats.rs has what the records do.

use tulivombe_tests::literal::Literal;
use tulivombe_tests::outcome::{take, Outcome};
use tulivombe_tests::record::Record;
use tulivombe_tests::subject::{Caller, Plain, Subject};

const M: u8 = 8;
const SIZE: usize = 256;
const MOST: u32 = 4_096;
const CALLERS: [Caller; 2] = [Caller::Upload, Caller::Panel];

/// The bytes of answers that a budget asks for.
fn room(budget: u32) -> usize {
    5 * budget.min(MOST) as usize
}

/// The run of a file of at most 64 records, which both callers must make alike.
fn run<S: Subject>(file: &[u8], budget: u32, answers: usize) -> Outcome {
    let [upload, panel] = CALLERS.map(|caller| Outcome::of::<S>(caller, file, budget, SIZE, answers));
    assert_eq!(upload, panel, "{}, budget {budget}: {file:02x?}", S::NAME);
    upload
}

/// Records without repeats, as many as are asked for. Each leaves something else behind.
fn straight(records: usize) -> Vec<Record> {
    let hit = |at: u32| [Record::Step { d: 1, a: 0, i: at }, Record::Write { a: 1, w: 1, v: at + 1 }];
    let hits = (0..).flat_map(hit);
    [Record::Get { d: 0, n: 200 }].into_iter().chain(hits).take(records).collect()
}

/// Records that are carried out in `steps` steps, 8 or more: writes at rising places, and a give at the end.
fn rolled(steps: u32) -> Vec<Record> {
    let (turns, over) = ((steps - 5) / 3, (steps - 5) % 3);
    let mut records = vec![Record::Get { d: 0, n: 200 }, Record::Step { d: 1, a: 0, i: 0 }];
    records.push(Record::Set { d: 15, n: turns - 1 });
    records.push(Record::Fill { d: 2, a: 1, v: 7, n: 1 });
    records.push(Record::Step { d: 1, a: 1, i: 1 });
    records.push(Record::Again { d: 15, k: 3 });
    records.extend(vec![Record::Left { d: 3, a: 1 }; over as usize]);
    records.extend([Record::Read { d: 4, a: 0, w: 4 }, Record::Give { a: 0 }]);
    records
}

/// Records that never end: the counter is set in the loop, and what is filled grows.
fn endless() -> Vec<Record> {
    vec![
        Record::Get { d: 0, n: 200 },
        Record::Fill { d: 2, a: 0, v: 7, n: 200 },
        Record::Step { d: 0, a: 0, i: 1 },
        Record::Set { d: 15, n: 1 },
        Record::Again { d: 15, k: 1 },
    ]
}

/// Takes, each with the steps in which it ends, if it does.
fn takes() -> Vec<(Vec<Record>, Option<u32>)> {
    let mut takes: Vec<_> = [0, 1, 2, 40].map(|records| (straight(records as usize), Some(records))).into();
    takes.extend([8, 9, 10, 54, 4_095, 4_096, 4_097, 5_000].map(|steps| (rolled(steps), Some(steps))));
    takes.push((endless(), None));
    takes
}

/// Budgets round the steps, and round the most that any allows.
fn budgets(steps: Option<u32>) -> Vec<u32> {
    let steps = steps.unwrap_or(MOST);
    let near = [steps.saturating_sub(1), steps, steps + 1];
    [0, 1, 4_095, 4_096, 4_097, u32::MAX].into_iter().chain(near).collect()
}

/// With each budget: how many records are carried out, and whether one was still due; the answer slice that it asks for,
/// whatever the file has, and no less; bytes past the answers stay.
fn counted<S: Subject>(records: &[Record], steps: Option<u32>) {
    let file = take(M, records);
    for budget in budgets(steps) {
        let what = format!("{}, {steps:?} steps, budget {budget}", S::NAME);
        let allowed = budget.min(MOST);
        let outcome = run::<S>(&file, budget, room(budget));
        let count = steps.map_or(allowed, |steps| steps.min(allowed));
        let stopped = steps.is_none_or(|steps| steps > allowed);
        assert_eq!((outcome.ran.number, outcome.ran.count, outcome.ran.stopped), (0, count, stopped), "{what}");
        assert!(outcome.answers[5 * count as usize..].iter().all(|&byte| byte == 165), "{what}: past the answers");
        if let Some(short) = room(budget).checked_sub(1) {
            assert_eq!(run::<S>(&file, budget, short), Outcome::refused(9, SIZE, short), "{what}: one byte less");
        }
        let longer = run::<S>(&file, budget, room(budget) + 7);
        assert_eq!((longer.ran, &longer.arena, &longer.table), (outcome.ran, &outcome.arena, &outcome.table), "{what}");
        assert_eq!(longer.answers, [&outcome.answers[..], &[165; 7]].concat(), "{what}: a longer slice");
    }
    let longest = run::<S>(&file, MOST, 20_480);
    for budget in [4_097, 8_192, 1 << 31, u32::MAX] {
        assert_eq!(run::<S>(&file, budget, 20_480), longest, "{}: {budget} counts as 4,096", S::NAME);
    }
}

/// Of two runs alike but for the budget the larger keeps every answer of the smaller; where that did not stop, they are
/// one. Every budget is held to the next, so each is held to all.
fn larger_keeps<S: Subject>(records: &[Record], budgets: &[u32]) {
    let file = take(M, records);
    let outcomes: Vec<Outcome> = budgets.iter().map(|&budget| run::<S>(&file, budget, 20_480)).collect();
    for (budgets, outcomes) in budgets.windows(2).zip(outcomes.windows(2)) {
        let what = format!("{}, budgets {budgets:?}: {records:?}", S::NAME);
        let [smaller, larger] = outcomes else { panic!("two of them") };
        let kept = 5 * smaller.ran.count as usize;
        assert!(smaller.ran.count <= larger.ran.count, "{what}");
        assert!(smaller.answers[..kept] == larger.answers[..kept], "{what}: an earlier answer");
        assert!(smaller.ran.stopped || smaller == larger, "{what}: it had ended");
    }
}

/// A file with neither operation has one outcome for every budget from its records on: that with as many.
fn as_before<S: Subject>(records: usize) {
    let file = take(M, &straight(records));
    let upload = |budget: u32| Outcome::of::<S>(Caller::Upload, &file, budget, SIZE, 20_480);
    let all = upload(records as u32);
    assert_eq!((all.ran.number, all.ran.count, all.ran.stopped), (0, records as u32, false), "{}", S::NAME);
    for more in [1, 2, 100].map(|more| (records + more) as u32).into_iter().chain([4_095, 4_096, 4_097, u32::MAX]) {
        assert_eq!(upload(more), all, "{}: {records} records, budget {more}", S::NAME);
    }
    if let Some(less) = (records as u32).checked_sub(1) {
        let cut = upload(less);
        assert_eq!((cut.ran.count, cut.ran.stopped), (less, true), "{}: {records} records", S::NAME);
        // what the first records alone do
        let alone = Outcome::of::<S>(Caller::Upload, &take(M, &straight(records - 1)), less, SIZE, 20_480);
        assert_eq!(
            (cut.ran.registers, cut.arena, cut.table, cut.answers),
            (alone.ran.registers, alone.arena, alone.table, alone.answers)
        );
    }
}

/// A refused run has count 0 and has not stopped, though no record was carried out, and nothing is changed.
fn refused<S: Subject>(budget: u32) {
    let file = take(M, &endless());
    let cases: [(&[u8], u32, usize); 4] =
        [(&file[1..], 1, SIZE), (&file[..file.len() - 1], 4, SIZE), (&file, 8, 2 * SIZE), (&file, 8, 0)];
    for (file, number, arena) in cases {
        for caller in CALLERS {
            let outcome = Outcome::of::<S>(caller, file, budget, arena, room(budget));
            assert_eq!(outcome, Outcome::refused(number, arena, room(budget)), "{}, {caller:?}", S::NAME);
        }
    }
}

fn all<S: Subject>() {
    for (records, steps) in takes() {
        counted::<S>(&records, steps);
    }
    let every: Vec<u32> = (0..=70).chain([200, 1_000, 4_095, 4_096, 4_097, u32::MAX]).collect();
    for records in [straight(40), rolled(54), rolled(500), endless()] {
        larger_keeps::<S>(&records, &every);
    }
    // a file has room for 1,023 of them
    [0, 1, 40, 64, 65, 1_023].into_iter().for_each(as_before::<S>);
    [0, 1, 10, 4_096, u32::MAX].into_iter().for_each(refused::<S>);
}

#[test]
fn plain() {
    all::<Plain>();
}

#[test]
fn literal() {
    all::<Literal>();
}

#[cfg(feature = "library")]
#[test]
fn library() {
    all::<tulivombe_tests::library::Library>();
}
