//! Runs of whole takes.

use crate::files::{self, churning_take, mixed_take, records_of, take};
use crate::print::{line, title, LINE};
use crate::race::race;
use crate::tables::Heap;
use crate::{works, Ours};
use tulivombe_tests::record::Record;
use tulivombe_tests::subject::Plain;

pub fn section() {
    title("Takes, a record (the run's judging and fresh heap counted)", &LINE);
    for m in [6, 10, 16] {
        let file = mixed_take(m, usize::MAX);
        run_line(&format!("steps, writes and reads, {} records, m = {m}", records_of(&file)), &file);
    }
    let only = |record| take(10, &[Record::Get { d: 0, n: 512 }], &[record], usize::MAX);
    run_line("steps, m = 10", &only(Record::Step { d: 1, a: 0, i: 100 }));
    run_line("reads of 4 bytes, m = 10", &only(Record::Read { d: 1, a: 0, w: 4 }));
    run_line("writes of 4 bytes, m = 10", &only(Record::Write { a: 0, w: 4, v: 7 }));
    run_line("lefts, m = 10", &only(Record::Left { d: 1, a: 0 }));
    let place = Record::Grid { d: 1, a: 0, rows: 8, columns: 16, row: 3, column: 5 };
    run_line("grids of 8 by 16 bytes, m = 10", &only(place));
    run_line("fills of 16 bytes, m = 10", &only(Record::Fill { d: 1, a: 0, v: 7, n: 16 }));
    let file = churning_take(16);
    run_line(&format!("get and give, {} records, m = 16", records_of(&file)), &file);
    roll_lines(10, 30);
}

/// The same hits written out and by again, a roll and a record.
fn roll_lines(m: u32, rolls: usize) {
    let files = files::rolls(m, rolls);
    title(&format!("A roll of sixteen hits, in takes of {rolls} rolls, m = {m}"), &LINE);
    for (name, file) in ["written out", "by again"].into_iter().zip(&files) {
        let carried_out = works::run::<Plain>(file)(&mut Heap::fresh(m)) as usize;
        let [bytes, records] = [file.len(), carried_out].map(|all| all / rolls);
        line(&format!("{name}: a roll, {bytes} bytes, {records} records"), 1.0, run_times(file, rolls), &[]);
        line(&format!("{name}: a record"), 1.0, run_times(file, carried_out), &[]);
    }
}

/// A file's run, a record.
pub fn run_line(name: &str, file: &[u8]) {
    line(name, 1.0, run_times(file, records_of(file)), &[]);
}

pub fn run_times(file: &[u8], operations: usize) -> [f64; 2] {
    let mut heap = Heap::fresh(u32::from(file[1]));
    race(operations, &mut heap, [works::run::<Ours>(file), works::run::<Plain>(file)])
}
