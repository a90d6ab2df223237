//! The library beside plain C as well.

use crate::cases::SEARCHED;
use crate::print::{row, title};
use crate::race::{race, Work};
use crate::tables::{settled, Heap, SCANNED};
use crate::{works, Ours};
use tulivombe_tests::plain_c::PlainC;
use tulivombe_tests::subject::{Plain, Subject};

const ORDERS: [u32; 3] = [5, 10, 16];
const COLUMNS: [&str; 6] = ["work", "library ns", "plain Rust ns", "C ns", "library / plain Rust", "library / C"];

pub fn section() {
    title("The damage scan beside C", &COLUMNS);
    for kind in &SCANNED {
        for (m, mut heap) in ORDERS.into_iter().filter_map(|m| Some((m, (kind.heap)(m)?))) {
            let works = [works::scan(Ours::left), works::scan(Plain::left), works::scan(PlainC::left)];
            three(&format!("{}, m = {m}", kind.name), 1, &mut heap, works);
        }
    }
    title("Searches directly beside C, a call", &COLUMNS);
    for kind in &SEARCHED {
        for m in ORDERS {
            let case = (kind.case)(m);
            let works = [
                works::search(&case.timed, Ours::get, Ours::give),
                works::search(&case.timed, Plain::get, Plain::give),
                works::search(&case.timed, PlainC::get, PlainC::give),
            ];
            three(&format!("{}, m = {m}", kind.name), case.timed.len(), &mut case.heap(), works);
        }
    }
    title("A direct step beside C", &COLUMNS);
    for m in ORDERS {
        let mut heap = settled(m);
        let p = heap.last_pointer();
        let works = [works::step(p, 5, Ours::step), works::step(p, 5, Plain::step), works::step(p, 5, PlainC::step)];
        three(&format!("m = {m}"), 1, &mut heap, works);
    }
}

fn three(name: &str, operations: usize, heap: &mut Heap, works: [Work; 3]) {
    let [ours, plain, c] = race(operations, heap, works);
    row(name, &[ours, plain, c, ours / plain, ours / c]);
}
