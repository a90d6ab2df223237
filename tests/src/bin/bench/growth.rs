//! How times grow.

use crate::files::{churning_take, mixed_take, records_of};
use crate::print::{line, title, LINE};
use crate::race::race;
use crate::runs::{run_line, run_times};
use crate::{tables, works, Ours};
use tulivombe_tests::subject::{Plain, Subject};

pub fn section() {
    title("How a direct step grows with m", &LINE);
    for m in 5..=16 {
        let mut heap = tables::settled(m);
        let p = heap.last_pointer();
        let times = race(1, &mut heap, [works::step(p, 5, Ours::step), works::step(p, 5, Plain::step)]);
        line(&format!("m = {m}"), 1.1, times, &[]);
    }
    title("How get and give in a take grow with m, a record", &LINE);
    for m in [6, 8, 10, 12, 14, 16] {
        run_line(&format!("m = {m}"), &churning_take(m));
    }
    title("How a take of steps, writes and reads grows with its records, a take (m = 10)", &LINE);
    for records in [1, 75, 150, 300, 600, 1_200] {
        let file = mixed_take(10, records);
        line(&format!("{} records", records_of(&file)), 1.0, run_times(&file, 1), &[]);
    }
}
