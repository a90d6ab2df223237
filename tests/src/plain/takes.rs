//! The file of a take: reader, writer and judging.

use super::Refusal::{self, *};
use crate::record::Record;

/// The first byte of every file.
pub const VERSION: u8 = 1;
/// The longest file.
pub const LONGEST: usize = 8_192;
pub const REGISTERS: usize = 16;

/// Whether a record's registers are all among the sixteen.
fn registers_good(record: Record) -> bool {
    let highest = match record {
        Record::Get { d, .. } | Record::Again { d, .. } | Record::Set { d, .. } => d,
        Record::Give { a } | Record::Write { a, .. } => a,
        Record::Lock { a } | Record::Unlock { a } => a,
        Record::Step { d, a, .. } | Record::Read { d, a, .. } => d.max(a),
        Record::Left { d, a } | Record::Fill { d, a, .. } | Record::Grid { d, a, .. } => d.max(a),
        Record::Copy { d, a, b, .. } => d.max(a).max(b),
    };
    usize::from(highest) < REGISTERS
}

/// The record at a place and the next place (refused 4 to 7).
pub fn read(file: &[u8], at: usize) -> Result<(Record, usize), Refusal> {
    let Some((&length, rest)) = file.get(at..).and_then(<[u8]>::split_first) else {
        return Err(RecordLength);
    };
    let length = usize::from(length);
    if length == 0 || length > rest.len() {
        return Err(RecordLength);
    }
    let word = |a, b, c, d| u32::from_be_bytes([a, b, c, d]);
    let record = match rest[..length] {
        [1, d, n0, n1, n2, n3] => Record::Get { d, n: word(n0, n1, n2, n3) },
        [2, a] => Record::Give { a },
        [3, d, a, i0, i1, i2, i3] => Record::Step { d, a, i: word(i0, i1, i2, i3) },
        [4, d, a, w] => Record::Read { d, a, w },
        [5, a, w, v0, v1, v2, v3] => Record::Write { a, w, v: word(v0, v1, v2, v3) },
        [6, d, a] => Record::Left { d, a },
        [7, d, a, b, n0, n1, n2, n3] => Record::Copy { d, a, b, n: word(n0, n1, n2, n3) },
        [8, d, a, v, n0, n1, n2, n3] => Record::Fill { d, a, v, n: word(n0, n1, n2, n3) },
        [9, a] => Record::Lock { a },
        [10, a] => Record::Unlock { a },
        [11, d, k0, k1] => Record::Again { d, k: u16::from_be_bytes([k0, k1]) },
        [12, d, n0, n1, n2, n3] => Record::Set { d, n: word(n0, n1, n2, n3) },
        [13, d, a, rows, columns, row, column] => Record::Grid { d, a, rows, columns, row, column },
        [1..=13, ..] => return Err(OperationLength),
        _ => return Err(Operation),
    };
    if registers_good(record) {
        Ok((record, at + 1 + length))
    } else {
        Err(Register)
    }
}

/// The arena's order and the count of records of an accepted file (refused 1 to 7, 29).
pub fn judge(file: &[u8]) -> Result<(u32, usize), Refusal> {
    judge_each(file, |_, _| {})
}

/// The same, and tells the index and the place of each record.
pub fn judge_each(file: &[u8], mut met: impl FnMut(usize, usize)) -> Result<(u32, usize), Refusal> {
    if file.first() != Some(&VERSION) {
        return Err(Version);
    }
    let m = match file.get(1) {
        Some(&m @ 5..=16) => u32::from(m),
        _ => return Err(Size),
    };
    if file.len() > LONGEST {
        return Err(FileTooLong);
    }
    let mut at = 2;
    let mut count = 0;
    while at < file.len() {
        let (record, next) = read(file, at)?;
        if matches!(record, Record::Again { k, .. } if usize::from(k) >= count) {
            return Err(NotBack);
        }
        met(count, at);
        at = next;
        count += 1;
    }
    Ok((m, count))
}

/// Stores the two head bytes for m (refused 2, 9) and gives their count.
pub fn write_head(out: &mut [u8], m: u32) -> Result<usize, Refusal> {
    match m {
        5..=16 => store(out, &[VERSION, m as u8]),
        _ => Err(Size),
    }
}

/// Stores one record (refused 7, 9) and gives the count of its bytes.
pub fn write(out: &mut [u8], record: Record) -> Result<usize, Refusal> {
    if !registers_good(record) {
        return Err(Register);
    }
    // the single bytes, of an index each half, how many of them the record has, and the word that follows them: of a
    // grid its last four bytes
    let (head, count, word) = match record {
        Record::Get { d, n } => ([1, d, 0, 0], 2, Some(n)),
        Record::Give { a } => ([2, a, 0, 0], 2, None),
        Record::Step { d, a, i } => ([3, d, a, 0], 3, Some(i)),
        Record::Read { d, a, w } => ([4, d, a, w], 4, None),
        Record::Write { a, w, v } => ([5, a, w, 0], 3, Some(v)),
        Record::Left { d, a } => ([6, d, a, 0], 3, None),
        Record::Copy { d, a, b, n } => ([7, d, a, b], 4, Some(n)),
        Record::Fill { d, a, v, n } => ([8, d, a, v], 4, Some(n)),
        Record::Lock { a } => ([9, a, 0, 0], 2, None),
        Record::Unlock { a } => ([10, a, 0, 0], 2, None),
        Record::Again { d, k } => ([11, d, k.to_be_bytes()[0], k.to_be_bytes()[1]], 4, None),
        Record::Set { d, n } => ([12, d, 0, 0], 2, Some(n)),
        Record::Grid { d, a, rows, columns, row, column } => {
            ([13, d, a, 0], 3, Some(u32::from_be_bytes([rows, columns, row, column])))
        }
    };
    let mut bytes = [0; 9];
    let mut length = count;
    bytes[1..5].copy_from_slice(&head);
    if let Some(word) = word {
        bytes[1 + count..5 + count].copy_from_slice(&word.to_be_bytes());
        length += 4;
    }
    bytes[0] = length as u8;
    store(out, &bytes[..=length])
}

fn store(out: &mut [u8], bytes: &[u8]) -> Result<usize, Refusal> {
    let room = out.get_mut(..bytes.len()).ok_or(Room)?;
    room.copy_from_slice(bytes);
    Ok(bytes.len())
}
