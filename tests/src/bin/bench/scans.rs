//! The damage scan.

use crate::print::Grid;
use crate::race::race;
use crate::tables::SCANNED;
use crate::{works, Ours};
use tulivombe_tests::subject::{Plain, Subject};

pub fn section() {
    let mut grid = Grid::new(SCANNED.map(|kind| kind.name));
    for m in [5, 6, 7, 8, 10, 16] {
        let goal = if m == 5 { 1.1 } else { 1.0 };
        let cells = SCANNED.map(|kind| {
            let mut heap = (kind.heap)(m)?;
            Some(race(1, &mut heap, [works::scan(Ours::left), works::scan(Plain::left)]))
        });
        grid.add(m, goal, cells.into());
    }
    grid.print("The damage scan, by the blocks in the table");
}
