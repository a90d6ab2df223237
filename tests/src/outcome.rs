//! What a run is lent, and then what it returns and leaves.

use crate::random::append;
use crate::record::Record;
use crate::subject::{Caller, Ran, Subject};

#[derive(Clone, Debug, PartialEq, Eq)]
pub struct Outcome {
    pub ran: Ran,
    pub arena: Vec<u8>,
    pub table: Vec<u8>,
    pub answers: Vec<u8>,
}

impl Outcome {
    /// What is lent, every byte 165, as a run leaves it that is refused by that number.
    pub fn refused(number: u32, arena: usize, answers: usize) -> Outcome {
        let lent = |length: usize| vec![165; length];
        Outcome { ran: Ran::refused(number), arena: lent(arena), table: lent(arena / 16), answers: lent(answers) }
    }

    /// The run of a file with as much lent.
    pub fn of<S: Subject>(caller: Caller, file: &[u8], budget: u32, arena: usize, answers: usize) -> Outcome {
        let mut o = Outcome::refused(0, arena, answers);
        o.ran = caller.run::<S>(file, &mut o.arena, &mut o.table, &mut o.answers, budget);
        o
    }

    /// Number and value of each record carried out.
    pub fn answered(&self) -> Vec<(u32, u32)> {
        let value = |bytes: &[u8]| bytes.iter().fold(0, |value, &byte| value << 8 | u32::from(byte));
        let answers = self.answers.chunks_exact(5).take(self.ran.count as usize);
        answers.map(|answer| (answer[0].into(), value(&answer[1..]))).collect()
    }
}

/// A take for an arena of 2^m bytes.
pub fn take(m: u8, records: &[Record]) -> Vec<u8> {
    let mut file = vec![1, m];
    records.iter().for_each(|&record| append(&mut file, record));
    file
}
