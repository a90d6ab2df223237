//! Request 1 of document 02: both run calls side by side on takes of 63, 64, 65 and 70 records, good and bad.

use tulivombe_tests::literal::Literal;
use tulivombe_tests::outcome::{self, Outcome};
use tulivombe_tests::plain::takes::LONGEST;
use tulivombe_tests::record::Record;
use tulivombe_tests::subject::{Caller, Plain, Subject};

const SIZE: usize = 256;

/// A take for an arena of 256 bytes whose records make all eleven calls, most of them accepted.
fn take(records: usize) -> Vec<u8> {
    let record = |k: u8| {
        let (d, n) = (k / 11 % 8, u32::from(k));
        match k % 11 {
            0 => Record::Get { d, n: 1 + n % 32 },
            1 => Record::Fill { d: 8, a: d, v: k, n: 9 },
            2 => Record::Step { d: 9, a: d, i: n % 20 },
            3 => Record::Write { a: 9, w: 2, v: 257 * n },
            4 => Record::Lock { a: d },
            5 => Record::Read { d: 10, a: d, w: 4 },
            6 => Record::Left { d: 11, a: 9 },
            7 => Record::Copy { d: 12, a: 0, b: d, n },
            8 => Record::Unlock { a: d },
            9 => Record::Grid { d: 13, a: d, rows: 1 + d, columns: 3, row: d, column: k % 3 },
            _ => Record::Give { a: d / 2 },
        }
    };
    outcome::take(8, &(0..records as u8).map(record).collect::<Vec<_>>())
}

/// What is wrong with a run, and the upload's number for it. The five of a record are faults of the last one.
#[derive(Clone, Copy, Debug, PartialEq, Eq)]
enum Fault {
    Nothing = 0,
    LongFile = 3,
    RecordLength = 4,
    Operation = 5,
    OperationLength = 6,
    Register = 7,
    NotBack = 29,
    Arena = 8,
    ShortSlice = 9,
}

use Fault::*;

const FAULTS: [Fault; 9] =
    [Nothing, LongFile, RecordLength, Operation, OperationLength, Register, NotBack, Arena, ShortSlice];

/// A long file goes on with gives beyond its limit.
fn file(records: usize, fault: Fault) -> Vec<u8> {
    let last: &[u8] = match fault {
        RecordLength => &[0],
        Operation => &[2, 14, 0],
        OperationLength => &[3, 2, 0, 0],
        Register => &[2, 2, 16],
        NotBack => &[4, 11, 0, 255, 255],
        LongFile => return [take(records), [2, 2, 0].repeat(LONGEST / 3)].concat(),
        Nothing | Arena | ShortSlice => return take(records),
    };
    [&take(records - 1), last].concat()
}

/// How many bytes of arena and answer slice are lent.
fn lengths(records: usize, fault: Fault) -> (usize, usize) {
    (if fault == Arena { 2 * SIZE } else { SIZE }, 5 * records - usize::from(fault == ShortSlice))
}

fn refused(number: u32, records: usize, fault: Fault) -> Outcome {
    let (arena, answers) = lengths(records, fault);
    Outcome::refused(number, arena, answers)
}

/// The run with a budget of as many records as the file has.
fn outcome<S: Subject>(caller: Caller, records: usize, fault: Fault) -> Outcome {
    let (arena, answers) = lengths(records, fault);
    Outcome::of::<S>(caller, &file(records, fault), records as u32, arena, answers)
}

fn compare<S: Subject>(records: usize, fault: Fault) {
    let what = format!("{}, {records} records, {fault:?}", S::NAME);
    let upload = outcome::<S>(Caller::Upload, records, fault);
    if fault == Nothing {
        assert_eq!(upload, outcome::<Plain>(Caller::Upload, records, fault), "{what}");
        assert_eq!((upload.ran.number, upload.ran.count), (0, records as u32), "{what}");
        let accepted = upload.answers.chunks_exact(5).filter(|answer| answer[0] == 0).count();
        assert!(2 * accepted > records, "{what}: {accepted} accepted records");
    } else {
        assert_eq!(upload, refused(fault as u32, records, fault), "{what}");
    }
    let crowded = records > 64 && matches!(fault, Nothing | Arena | ShortSlice);
    let expected = if crowded { refused(26, records, fault) } else { upload };
    assert_eq!(outcome::<S>(Caller::Panel, records, fault), expected, "{what}");
}

fn side_by_side<S: Subject>() {
    for records in [63, 64, 65, 70] {
        FAULTS.iter().for_each(|&fault| compare::<S>(records, fault));
    }
}

#[test]
fn plain() {
    side_by_side::<Plain>();
}

#[test]
fn literal() {
    side_by_side::<Literal>();
}

#[cfg(feature = "library")]
#[test]
fn library() {
    side_by_side::<tulivombe_tests::library::Library>();
}
