//! The library beside what the processor needs for the bytes alone.

use crate::bytes::{blocks, HALF};
use crate::print::{row, title};
use crate::race::{race, Work};
use crate::tables::{settled, Heap};
use crate::{works, Ours};
use tulivombe_tests::plain::heap::BASE;
use tulivombe_tests::subject::Subject;

pub fn section() {
    let columns = ["work", "library ns", "limit ns", "ratio"];
    title("Direct calls beside the bytes alone: the table read once, and memset or memmove", &columns);
    for m in [10, 16] {
        for (name, mut heap) in [("all free", Heap::fresh(m)), ("all orders", settled(m))] {
            beside(&format!("scan, {name}, m = {m}"), &mut heap, [works::scan(Ours::left), works::read_table()]);
        }
    }
    let heap = &mut blocks(HALF);
    let fill = [works::fill::<Ours>(BASE, 7, HALF), works::read_table(), works::memset(7, HALF, 1)];
    beside("fill of 32 KiB", heap, fill);
    let copy = [works::copy::<Ours>(BASE + HALF, BASE, HALF), works::read_table(), works::memmove(HALF, 0, HALF, 1)];
    beside("copy of 32 KiB, apart", heap, copy);
}

/// The first work is the library's; the limit is the sum of the others.
fn beside<const N: usize>(name: &str, heap: &mut Heap, works: [Work; N]) {
    let times = race(1, heap, works);
    let limit: f64 = times[1..].iter().sum();
    row(name, &[times[0], limit, times[0] / limit]);
}
