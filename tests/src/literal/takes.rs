//! The file of a take, word for word: reader, judge and writer all go by the operation table as document 01 prints it,
//! with the rows that document 02 adds.

use crate::record::Record;
use crate::subject::{Answer, Place};
use std::sync::LazyLock;

/// Document 01, "A take": operation, fields, length. Request 7: "Operations 9 (lock) and 10 (unlock) have the field a,
/// length 2". Request 9: "Operation 11, again, has a register d and a record index k of two big-endian bytes, length 4";
/// "Operation 12, set, has d and a big-endian 4-byte number, length 6", here n. Request 10: "Operation 13 has d, a, then
/// one byte each for rows, columns, row and column, length 7".
const PRINTED: &str = "
| 1 get | d n | 6 |
| 2 give | a | 2 |
| 3 step | d a i | 7 |
| 4 read | d a w | 4 |
| 5 write | a w v | 7 |
| 6 left | d a | 3 |
| 7 copy | d a b n | 8 |
| 8 fill | d a v n | 8 |
| 9 lock | a | 2 |
| 10 unlock | a | 2 |
| 11 again | d k | 4 |
| 12 set | d n | 6 |
| 13 grid | d a rows columns row column | 7 |
";

struct Row {
    operation: u8,
    name: &'static str,
    fields: Vec<&'static str>,
    length: usize,
}

static TABLE: LazyLock<Vec<Row>> = LazyLock::new(|| PRINTED.trim().lines().map(row).collect());

fn row(line: &'static str) -> Row {
    let [_, head, fields, length, _] = line.split('|').collect::<Vec<_>>()[..] else {
        panic!("no row: {line}");
    };
    let (operation, name) = head.trim().split_once(' ').expect("a number and a name");
    Row {
        operation: operation.parse().expect("a number"),
        name,
        fields: fields.split_whitespace().collect(),
        length: length.trim().parse().expect("a number"),
    }
}

/// "d, a, b are register bytes; n, i and the v of write take 4 bytes big-endian (i two's complement); w and the v of
/// fill one." k takes two, and each of a grid's four one.
fn size(name: &str, field: &str) -> usize {
    match (name, field) {
        (_, "d" | "a" | "b" | "w") | ("fill", "v") => 1,
        ("again", "k") => 2,
        ("grid", "rows" | "columns" | "row" | "column") => 1,
        (_, "n" | "i") | ("write", "v") => 4,
        _ => panic!("{name} has no field {field}"),
    }
}

/// A record's fields by their letters, or by their names where they have no letter.
type Fields = Vec<(&'static str, u32)>;

/// 7: "Register above 15."
fn high_register(fields: &Fields) -> bool {
    fields.iter().any(|&(field, value)| ["d", "a", "b"].contains(&field) && value > 15)
}

fn values(row: &Row, bytes: &[u8]) -> Fields {
    let mut at = 0;
    let value = |&field: &&'static str| {
        let digits = &bytes[at..at + size(row.name, field)];
        at += digits.len();
        (field, digits.iter().fold(0, |number, &digit| 256 * number + u32::from(digit)))
    };
    row.fields.iter().map(value).collect()
}

fn record_of(name: &str, fields: &Fields) -> Record {
    let word = |letter| fields.iter().find(|(field, _)| *field == letter).expect("a field of its row").1;
    let byte = |letter| u8::try_from(word(letter)).expect("a field of one byte");
    match name {
        "get" => Record::Get { d: byte("d"), n: word("n") },
        "give" => Record::Give { a: byte("a") },
        "step" => Record::Step { d: byte("d"), a: byte("a"), i: word("i") },
        "read" => Record::Read { d: byte("d"), a: byte("a"), w: byte("w") },
        "write" => Record::Write { a: byte("a"), w: byte("w"), v: word("v") },
        "left" => Record::Left { d: byte("d"), a: byte("a") },
        "copy" => Record::Copy { d: byte("d"), a: byte("a"), b: byte("b"), n: word("n") },
        "fill" => Record::Fill { d: byte("d"), a: byte("a"), v: byte("v"), n: word("n") },
        "lock" => Record::Lock { a: byte("a") },
        "unlock" => Record::Unlock { a: byte("a") },
        "again" => Record::Again { d: byte("d"), k: u16::try_from(word("k")).expect("a field of two bytes") },
        "set" => Record::Set { d: byte("d"), n: word("n") },
        "grid" => Record::Grid {
            d: byte("d"),
            a: byte("a"),
            rows: byte("rows"),
            columns: byte("columns"),
            row: byte("row"),
            column: byte("column"),
        },
        _ => panic!("no operation {name}"),
    }
}

fn named(record: Record) -> (&'static str, Fields) {
    let byte = u32::from;
    match record {
        Record::Get { d, n } => ("get", vec![("d", byte(d)), ("n", n)]),
        Record::Give { a } => ("give", vec![("a", byte(a))]),
        Record::Step { d, a, i } => ("step", vec![("d", byte(d)), ("a", byte(a)), ("i", i)]),
        Record::Read { d, a, w } => ("read", vec![("d", byte(d)), ("a", byte(a)), ("w", byte(w))]),
        Record::Write { a, w, v } => ("write", vec![("a", byte(a)), ("w", byte(w)), ("v", v)]),
        Record::Left { d, a } => ("left", vec![("d", byte(d)), ("a", byte(a))]),
        Record::Copy { d, a, b, n } => ("copy", vec![("d", byte(d)), ("a", byte(a)), ("b", byte(b)), ("n", n)]),
        Record::Fill { d, a, v, n } => ("fill", vec![("d", byte(d)), ("a", byte(a)), ("v", byte(v)), ("n", n)]),
        Record::Lock { a } => ("lock", vec![("a", byte(a))]),
        Record::Unlock { a } => ("unlock", vec![("a", byte(a))]),
        Record::Again { d, k } => ("again", vec![("d", byte(d)), ("k", u32::from(k))]),
        Record::Set { d, n } => ("set", vec![("d", byte(d)), ("n", n)]),
        Record::Grid { d, a, rows, columns, row, column } => {
            let grid = [("rows", rows), ("columns", columns), ("row", row), ("column", column)];
            let fields = [("d", d), ("a", a)].into_iter().chain(grid);
            ("grid", fields.map(|(field, value)| (field, byte(value))).collect())
        }
    }
}

/// The length byte, the operation byte and the fields in their row's order.
fn record_bytes(name: &str, fields: &Fields) -> Vec<u8> {
    let row = TABLE.iter().find(|row| row.name == name).expect("every record has a row");
    let mut bytes = vec![row.length as u8, row.operation];
    for letter in &row.fields {
        let (_, value) = fields.iter().find(|(field, _)| field == letter).expect("a record has its row's fields");
        let places = (0..size(name, letter) as u32).rev();
        bytes.extend(places.map(|place| (value / 256u32.pow(place) % 256) as u8));
    }
    bytes
}

/// The reader: the record at a place and the next place, or the lowest number of 4 to 7.
pub fn read(file: &[u8], at: usize) -> Place {
    // A place at or beyond the end is 4, as is a length of 0.
    let left = file.get(at..).unwrap_or_default();
    let length = left.first().map_or(0, |&byte| usize::from(byte));
    if length == 0 || length > left.len() - 1 {
        return Err(4);
    }
    let row = TABLE.iter().find(|row| row.operation == left[1]).ok_or(5u32)?;
    if length != row.length {
        return Err(6);
    }
    let fields = values(row, &left[2..=length]);
    if high_register(&fields) {
        return Err(7);
    }
    Ok((record_of(row.name, &fields), at + 1 + length))
}

/// The records of an accepted file: "1, 2, 3, then record by record (4 to 7, lowest first)".
pub fn judge(file: &[u8]) -> Result<Vec<Record>, u32> {
    let size_byte = file.get(1).copied().unwrap_or(0);
    let head = [(1, file.first() != Some(&1)), (2, !(5..=16).contains(&size_byte)), (3, file.len() > 8_192)];
    if let Some((number, _)) = head.into_iter().find(|(_, applies)| *applies) {
        return Err(number);
    }
    let (records, number) = records(file);
    if number == 0 {
        Ok(records)
    } else {
        Err(number)
    }
}

/// The records up to the end or the first that is refused, and its number, 0 where none is.
pub fn records(file: &[u8]) -> (Vec<Record>, u32) {
    let mut records = Vec::new();
    let mut at = 2;
    while at != file.len() {
        match read(file, at) {
            Err(number) => return (records, number),
            // "A k not below the record's own index is refused 29, judged after 7 in its record."
            Ok((Record::Again { k, .. }, _)) if usize::from(k) >= records.len() => return (records, 29),
            Ok((record, next)) => {
                records.push(record);
                at = next;
            }
        }
    }
    (records, 0)
}

/// The writer of the two head bytes for m (refused 2, 9).
pub fn write_head(out: &mut [u8], m: u32) -> Answer {
    store(out, (2, !(5..=16).contains(&m)), &[1, m as u8])
}

/// The writer of one record (refused 7, 9).
pub fn write_record(out: &mut [u8], record: Record) -> Answer {
    let (name, fields) = named(record);
    store(out, (7, high_register(&fields)), &record_bytes(name, &fields))
}

/// Stores bytes where neither the writer's own number nor 9 applies, and gives their count; bytes past them stay.
fn store(out: &mut [u8], own: (u32, bool), bytes: &[u8]) -> Answer {
    let refusals = [own, (9, out.len() < bytes.len())];
    if let Some((number, _)) = refusals.into_iter().find(|(_, applies)| *applies) {
        return Answer { number, value: 0 };
    }
    out[..bytes.len()].copy_from_slice(bytes);
    Answer { number: 0, value: bytes.len() as u32 }
}

#[test]
fn a_rows_length_counts_its_operation_and_fields() {
    for row in TABLE.iter() {
        let fields: usize = row.fields.iter().map(|field| size(row.name, field)).sum();
        assert_eq!(row.length, 1 + fields, "{}", row.name);
    }
}
