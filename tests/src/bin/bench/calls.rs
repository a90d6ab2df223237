//! Direct calls on well filled heaps.

use crate::print::Grid;
use crate::race::{race, Work};
use crate::{tables, works, Ours};
use tulivombe_tests::subject::{Plain, Subject};

pub fn section() {
    let mut grid = Grid::new(["step", "read", "write", "left", "grid", "check", "give", "fresh"]);
    for m in [5, 6, 7, 8, 10, 16] {
        let mut heap = tables::settled(m);
        let p = heap.last_pointer();
        let ours = all::<Ours>(&heap, p);
        let plain = all::<Plain>(&heap, p);
        let cells = ours.into_iter().zip(plain).map(|(a, b)| Some(race(1, &mut heap, [a, b]))).collect();
        grid.add(m, 1.1, cells);
    }
    grid.print("Direct calls, each with its damage scan");
}

/// fresh comes last, as it frees all blocks.
fn all<'a, S: Subject + 'a>(heap: &tables::Heap, p: u32) -> [Work<'a>; 8] {
    [
        works::step(p, 5, S::step),
        works::read::<S>(p, 4),
        works::write::<S>(p, 4, 0xDECA_FBAD),
        works::left(p, S::left),
        works::grid::<S>(p, 2, 2),
        works::check::<S>(p, 5),
        works::give::<S>(heap, p),
        works::fresh::<S>(),
    ]
}
