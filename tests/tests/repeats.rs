//! Request 9 of document 02: what again and set do in a take, 29, and both in a file. tests/budgets.rs has the budget.

use tulivombe_tests::call::Call;
use tulivombe_tests::literal::Literal;
use tulivombe_tests::outcome::{take, Outcome};
use tulivombe_tests::plain::heap::BASE;
use tulivombe_tests::record::Record;
use tulivombe_tests::subject::{Answer, Caller, Plain, Subject};

const M: u8 = 8;
const SIZE: usize = 256;
const CALLERS: [Caller; 2] = [Caller::Upload, Caller::Panel];

/// A record that changes nothing: register 10 is never set, so what it holds is outside.
const IDLE: Record = Record::Left { d: 10, a: 10 };

/// The outcome of a file that both callers must run alike, on an answer slice that just fits.
fn run<S: Subject>(file: &[u8], budget: u32) -> Outcome {
    let room = 5 * budget.min(4_096) as usize;
    let [upload, panel] = CALLERS.map(|caller| Outcome::of::<S>(caller, file, budget, SIZE, room));
    assert_eq!(upload, panel, "{}: {file:02x?}", S::NAME);
    upload
}

/// The records end after these answers.
fn answers<S: Subject>(records: &[Record], expected: &[(u32, u32)]) -> Outcome {
    let outcome = run::<S>(&take(M, records), 500);
    assert_eq!((outcome.ran.number, outcome.ran.stopped), (0, false), "{}: {records:?}", S::NAME);
    assert_eq!(outcome.answered(), expected, "{}: {records:?}", S::NAME);
    outcome
}

/// A roll by again does what the same hits do that are written out: their answers, registers, arena and table.
fn rolls<S: Subject>(hits: u32) {
    let start = [Record::Get { d: 0, n: 128 }, Record::Write { a: 0, w: 4, v: 0x7F60_4020 }];
    let aimed = Record::Step { d: 1, a: 0, i: 0 };
    let hit = [Record::Copy { d: 2, a: 1, b: 0, n: 4 }, Record::Step { d: 1, a: 1, i: 6 }];
    let out = run::<S>(&take(M, &[&start[..], &[aimed], &hit.repeat(hits as usize)].concat()), 500);
    let again = [Record::Again { d: 15, k: 4 }];
    let roll =
        run::<S>(&take(M, &[&start[..], &[aimed, Record::Set { d: 15, n: hits - 1 }], &hit, &again].concat()), 500);
    assert_eq!((roll.ran.count, out.ran.count), (4 + 3 * hits, 3 + 2 * hits), "{}", S::NAME);
    let made = roll.answered();
    assert_eq!(made[3], (0, hits - 1), "{}: the set", S::NAME);
    let agains: Vec<u32> = made[4..].chunks(3).map(|turn| turn[2].1).collect();
    let falling: Vec<u32> = (0..hits).map(|turn| (hits - 1).saturating_sub(turn + 1)).collect();
    assert_eq!(agains, falling, "{}: the agains", S::NAME);
    let of_hits = made[4..].chunks(3).flat_map(|turn| turn[..2].to_vec());
    let calls: Vec<_> = made[..3].iter().copied().chain(of_hits).collect();
    assert_eq!(calls, out.answered(), "{}: the hits", S::NAME);
    // the counter is 0 again, as it was before the set
    assert_eq!(roll.ran.registers, out.ran.registers, "{}", S::NAME);
    assert_eq!((roll.arena, roll.table), (out.arena, out.table), "{}: {hits} hits", S::NAME);
}

/// Its value is d afterwards, and d before says whether it goes back: with 1 it does, and gives 0; with 0 it gives 0 too,
/// does not go back, and counts.
fn counts_down<S: Subject>() {
    let turn = |n: u32| [Record::Set { d: 3, n }, IDLE, Record::Again { d: 3, k: 1 }, IDLE];
    let idle = (27, 0);
    answers::<S>(&turn(0), &[(0, 0), idle, (0, 0), idle]);
    answers::<S>(&turn(1), &[(0, 1), idle, (0, 0), idle, (0, 0), idle]);
    let two = answers::<S>(&turn(2), &[(0, 2), idle, (0, 1), idle, (0, 0), idle, (0, 0), idle]);
    assert_eq!(two.ran.registers, [0; 16], "{}", S::NAME);
    // a register that was never set
    answers::<S>(&[IDLE, Record::Again { d: 9, k: 0 }, IDLE], &[idle, (0, 0), idle]);
    // the largest number, and a budget that ends it after the second again
    let most = run::<S>(&take(M, &turn(u32::MAX)), 5);
    let expected = [(0, u32::MAX), idle, (0, u32::MAX - 1), idle, (0, u32::MAX - 2)];
    assert_eq!((most.answered(), most.ran.stopped), (expected.to_vec(), true), "{}", S::NAME);
    assert_eq!(most.ran.registers[3], u32::MAX - 2, "{}", S::NAME);
}

/// Record 0 may be gone back to, and d be a pointer: what the get gives is counted down.
fn goes_to_the_first<S: Subject>() {
    let file = take(M, &[Record::Get { d: 0, n: 128 }, Record::Again { d: 0, k: 0 }]);
    let outcome = run::<S>(&file, 6);
    let expected = [(0, BASE), (0, BASE - 1), (0, BASE + 128), (0, BASE + 127), (21, 0), (0, BASE + 126)];
    assert_eq!((outcome.answered(), outcome.ran.stopped), (expected.to_vec(), true), "{}", S::NAME);
}

/// Repeats in repeats: three turns of four, in each of which the inner counter is set anew.
fn nested<S: Subject>() {
    let records = [
        Record::Get { d: 0, n: 64 },
        Record::Set { d: 1, n: 2 },
        Record::Set { d: 2, n: 3 },
        Record::Step { d: 0, a: 0, i: 1 },
        Record::Again { d: 2, k: 3 },
        Record::Write { a: 0, w: 1, v: 200 },
        Record::Again { d: 1, k: 2 },
    ];
    let mut expected = vec![(0, BASE), (0, 2)];
    for outer in [1, 0, 0].into_iter().enumerate() {
        expected.push((0, 3));
        for inner in [2, 1, 0, 0].into_iter().enumerate() {
            expected.extend([(0, BASE + 4 * outer.0 as u32 + inner.0 as u32 + 1), (0, inner.1)]);
        }
        expected.extend([(0, 0), (0, outer.1)]);
    }
    let outcome = answers::<S>(&records, &expected);
    let written: Vec<usize> = (0..SIZE).filter(|&at| outcome.arena[at] == 200).collect();
    assert_eq!(written, [4, 8, 12], "{}", S::NAME);
}

/// A counter that is set within its own loop: to 0 ends it, to 1 never does.
fn set_in_the_loop<S: Subject>() {
    let records = |n: u32| [Record::Set { d: 4, n: 9 }, Record::Set { d: 4, n }, Record::Again { d: 4, k: 1 }];
    answers::<S>(&records(0), &[(0, 9), (0, 0), (0, 0)]);
    let endless = run::<S>(&take(M, &records(1)), 4_096);
    assert_eq!((endless.ran.count, endless.ran.stopped), (4_096, true), "{}", S::NAME);
    let turns = (0..4_096).map(|step| (0, [9, 1, 0][if step == 0 { 0 } else { 2 - step % 2 }]));
    assert_eq!(endless.answered(), turns.collect::<Vec<_>>(), "{}", S::NAME);
    // read out of a block, the counter is as good
    let read = [Record::Get { d: 0, n: 16 }, Record::Read { d: 4, a: 0, w: 1 }, Record::Again { d: 4, k: 1 }, IDLE];
    answers::<S>(&read, &[(0, BASE), (0, 0), (0, 0), (27, 0)]);
}

/// Set puts its number in its register, and in no other.
fn sets<S: Subject>() {
    for d in 0..16 {
        for n in [0, 1, 0x0102_0304, u32::MAX] {
            let first = Record::Set { d, n: 77 };
            let outcome = answers::<S>(&[first, Record::Set { d, n }], &[(0, 77), (0, n)]);
            let mut registers = [0; 16];
            registers[usize::from(d)] = n;
            assert_eq!(outcome.ran.registers, registers, "{}", S::NAME);
            assert!(outcome.arena == [0; SIZE] && outcome.table == [0; SIZE / 16], "{}", S::NAME);
        }
    }
}

/// Both callers refuse the file, whatever is lent, and change nothing.
fn refused<S: Subject>(file: &[u8], number: u32) {
    for caller in CALLERS {
        for (budget, arena, answers) in
            [(0, SIZE, 0), (1, SIZE, 5), (9, SIZE, 0), (u32::MAX, 64, 0), (4_096, SIZE, 20_480)]
        {
            let outcome = Outcome::of::<S>(caller, file, budget, arena, answers);
            assert_eq!(outcome, Outcome::refused(number, arena, answers), "{}, {caller:?}: {file:02x?}", S::NAME);
        }
    }
}

/// An again that is the record `index` goes to a record before it, or is refused 29.
fn only_back<S: Subject>() {
    for index in [0u16, 1, 2, 5, 63, 255, 256, 300] {
        let near = [index.saturating_sub(1), index, index + 1];
        for k in [0, 1, 44, 255, 256, 65_535].into_iter().chain(near) {
            let mut records = vec![IDLE; usize::from(index)];
            records.push(Record::Again { d: 0, k });
            let file = take(M, &records);
            if k >= index {
                refused::<S>(&file, 29);
            } else {
                let ran = Outcome::of::<S>(Caller::Upload, &file, 301, SIZE, 5 * 301).ran;
                assert_eq!((ran.number, ran.count), (0, u32::from(index) + 1), "{}: {k} at {index}", S::NAME);
            }
        }
    }
    // its own index is its place in the file: when it is due, 103 records have been carried out
    let loops = [Record::Set { d: 1, n: 50 }, IDLE, Record::Again { d: 1, k: 1 }];
    for k in [3, 4, 102] {
        refused::<S>(&take(M, &[&loops[..], &[Record::Again { d: 2, k }]].concat()), 29);
    }
    let file = take(M, &[&loops[..], &[Record::Again { d: 2, k: 2 }]].concat());
    assert_eq!(run::<S>(&file, 500).ran.count, 104, "{}", S::NAME);
}

/// 29 is judged after 7 in its record, before the records after it, and before 26, 8 and 9 (which `refused` lends).
fn judged_in_its_record<S: Subject>() {
    let strays = take(M, &[IDLE, Record::Again { d: 0, k: 1 }]);
    let idle = take(M, &[IDLE]);
    let bad: [(&[u8], u32); 5] = [(&[0], 4), (&[9, 1], 4), (&[2, 14, 0], 5), (&[3, 2, 0, 0], 6), (&[2, 2, 16], 7)];
    for (record, number) in bad {
        refused::<S>(&[&strays, record].concat(), 29);
        refused::<S>(&[&idle, record, &[4, 11, 0, 0, 9]].concat(), number);
    }
    let own: [(&[u8], u32); 6] = [
        (&[5, 11, 16, 0, 9], 4),
        (&[3, 11, 0, 9], 6),
        (&[5, 11, 16, 0, 9, 9], 6),
        (&[4, 11, 16, 0, 9], 7),
        (&[4, 11, 255, 0, 0], 7),
        (&[4, 11, 15, 0, 1], 29),
    ];
    own.into_iter().for_each(|(record, number)| refused::<S>(&[&idle, record].concat(), number));
    let crowd = take(M, &[&[IDLE; 70][..], &[Record::Again { d: 0, k: 70 }]].concat());
    refused::<S>(&crowd, 29);
    refused::<S>(&[&[2], &strays[1..]].concat(), 1);
    refused::<S>(&[&[1, 4], &strays[2..]].concat(), 2);
    refused::<S>(&[&strays[..], &[2, 2, 0].repeat(2_730)].concat(), 3);
}

/// The last record of the longest file goes back, to the one before it or to the second.
fn in_the_longest_file<S: Subject>() {
    let gives = [Record::Give { a: 10 }; 2_726];
    for (k, steps) in [(2_726, 2_728 + 2 * 3), (1, 2_728 + 2_727 * 3)] {
        let records = [&[Record::Set { d: 1, n: 3 }][..], &gives, &[Record::Again { d: 1, k }]].concat();
        let file = take(M, &records);
        assert_eq!(file.len(), 8_192);
        let outcome = Outcome::of::<S>(Caller::Upload, &file, 4_096, SIZE, 20_480);
        assert_eq!((outcome.ran.number, outcome.ran.count), (0, steps.min(4_096)), "{}: to {k}", S::NAME);
        assert_eq!(outcome.ran.stopped, steps > 4_096, "{}: to {k}", S::NAME);
        let agains: Vec<_> =
            outcome.answered()[1..].iter().filter(|answer| answer.0 == 0).map(|answer| answer.1).collect();
        assert!([2, 1, 0, 0].starts_with(&agains) && !agains.is_empty(), "{}: {agains:?}", S::NAME);
    }
}

/// The screen's 64 are records of the file, however many are carried out.
fn on_the_screen<S: Subject>() {
    let listed = |idle: usize| {
        let repeated = [Record::Set { d: 1, n: 100 }, Record::Again { d: 1, k: idle as u16 }];
        take(M, &[&vec![IDLE; idle][..], &repeated].concat())
    };
    // back to the set for ever
    let ran = run::<S>(&listed(62), 4_096).ran;
    assert_eq!((ran.number, ran.count, ran.stopped), (0, 4_096, true), "{}", S::NAME);
    let crowded = Outcome::of::<S>(Caller::Panel, &listed(63), 10, SIZE, 50);
    assert_eq!(crowded, Outcome::refused(26, SIZE, 50), "{}", S::NAME);
    let ran = Outcome::of::<S>(Caller::Upload, &listed(63), 10, SIZE, 50).ran;
    assert_eq!((ran.number, ran.count, ran.stopped), (0, 10, true), "{}", S::NAME);
}

/// A record's bytes, written and read back.
fn both_ways<S: Subject>(record: Record, bytes: &[u8]) {
    let mut out = [165; 9];
    let value = bytes.len() as u32;
    assert_eq!(S::write_record(&mut out, record), Answer { number: 0, value }, "{}: {record:?}", S::NAME);
    assert_eq!(
        (&out[..bytes.len()], &out[bytes.len()..]),
        (bytes, &[165; 9][bytes.len()..]),
        "{}: {record:?}",
        S::NAME
    );
    assert_eq!(S::read_record(bytes, 0), Ok((record, bytes.len())), "{}: {record:?}", S::NAME);
    let short = S::write_record(&mut out[..bytes.len() - 1], record);
    assert_eq!(short, Answer { number: 9, value: 0 }, "{}: {record:?}", S::NAME);
}

/// The writer stores every index as given, and the reader, which knows no record's own index, reads it back.
fn read_and_written<S: Subject>() {
    for k in 0..=u16::MAX {
        let d = (k % 16) as u8;
        both_ways::<S>(Record::Again { d, k }, &[4, 11, d, (k / 256) as u8, (k % 256) as u8]);
    }
    for d in 0..16 {
        both_ways::<S>(Record::Set { d, n: 0 }, &[6, 12, d, 0, 0, 0, 0]);
        both_ways::<S>(Record::Set { d, n: 0x0102_0304 }, &[6, 12, d, 1, 2, 3, 4]);
        both_ways::<S>(Record::Set { d, n: u32::MAX }, &[6, 12, d, 255, 255, 255, 255]);
    }
    for d in [16, 17, 128, 255] {
        for record in [Record::Again { d, k: 0 }, Record::Set { d, n: 0 }] {
            assert_eq!(S::write_record(&mut [0; 9], record), Answer { number: 7, value: 0 }, "{}", S::NAME);
            assert_eq!(S::write_record(&mut [], record), Answer { number: 7, value: 0 }, "{}", S::NAME);
        }
        assert_eq!(S::read_record(&[4, 11, d, 0, 0], 0), Err(7), "{}", S::NAME);
        assert_eq!(S::read_record(&[6, 12, d, 0, 0, 0, 0], 0), Err(7), "{}", S::NAME);
    }
}

/// Every other length is wrong; the operations from 14 on are in no table.
fn wrong_records<S: Subject>() {
    for (operation, length) in [(11, 4), (12, 6)] {
        for wrong in (1..=20).filter(|&wrong| wrong != length) {
            let record = [&[wrong, operation][..], &vec![0; usize::from(wrong) - 1]].concat();
            assert_eq!(S::read_record(&record, 0), Err(6), "{}: {record:?}", S::NAME);
            refused::<S>(&[&[1, M], &record[..]].concat(), 6);
        }
    }
    for operation in [0, 14, 15, 127, 255] {
        assert_eq!(S::read_record(&[4, operation, 0, 0, 0], 0), Err(5), "{}", S::NAME);
        refused::<S>(&[1, M, 4, operation, 0, 0, 0], 5);
    }
}

/// Neither is a call.
fn in_no_replay<S: Subject>() {
    for operation in [11, 12] {
        let mut call = Call::Get { n: 16 }.encode();
        call[0] = operation;
        let list = [Call::Get { n: 16 }.encode(), call].concat();
        let mut o = Outcome::refused(0, SIZE, 10);
        assert_eq!(S::replay(&mut o.arena, &mut o.table, &list, &mut o.answers), 5, "{}", S::NAME);
        assert_eq!(o, Outcome::refused(0, SIZE, 10), "{}", S::NAME);
    }
}

fn all<S: Subject>() {
    [1, 2, 3, 16].into_iter().for_each(rolls::<S>);
    counts_down::<S>();
    goes_to_the_first::<S>();
    nested::<S>();
    set_in_the_loop::<S>();
    sets::<S>();
    only_back::<S>();
    judged_in_its_record::<S>();
    in_the_longest_file::<S>();
    on_the_screen::<S>();
    read_and_written::<S>();
    wrong_records::<S>();
    in_no_replay::<S>();
}

#[test]
fn plain() {
    all::<Plain>();
}

#[test]
fn literal() {
    all::<Literal>();
}

#[cfg(feature = "library")]
#[test]
fn library() {
    all::<tulivombe_tests::library::Library>();
}
