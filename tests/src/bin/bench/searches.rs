//! Searches for a place, on tables that are hard or easy to search.

use crate::cases::{Case, SearchKind, SEARCHED};
use crate::files::records_of;
use crate::print::{Cell, Grid};
use crate::race::{race, timed, Work};
use crate::tables::Heap;
use crate::{works, Ours};
use tulivombe_tests::subject::{Plain, Subject};

/// A replay has no more timed calls than this: the caches would not hold a longer list.
const MOST_CALLS: usize = 400_000;

pub fn section() {
    grid("Searches directly, a call", directly);
    grid("Searches in a replay, a call, less the calls that build the table", in_replay);
    grid("Searches in a take, a record, less those that build the table (none if they fill half the file)", in_take);
}

fn grid(text: &str, cell: fn(&SearchKind, u32) -> Cell) {
    let mut grid = Grid::new(SEARCHED.map(|kind| kind.name));
    for m in 5..=16 {
        grid.add(m, 1.0, SEARCHED.iter().map(|kind| cell(kind, m)).collect());
    }
    grid.print(text);
}

fn directly(kind: &SearchKind, m: u32) -> Cell {
    let case = (kind.case)(m);
    let ours = works::search(&case.timed, Ours::get, Ours::give);
    let plain = works::search(&case.timed, Plain::get, Plain::give);
    Some(race(case.timed.len(), &mut case.heap(), [ours, plain]))
}

fn in_replay(kind: &SearchKind, m: u32) -> Cell {
    let case = (kind.case)(m);
    let turns = turns(&case);
    let (whole, building) = (case.list(turns), case.list(0));
    let with = [works::replay::<Ours>(&whole), works::replay::<Plain>(&whole)];
    let without = [works::replay::<Ours>(&building), works::replay::<Plain>(&building)];
    difference(m, with, without, turns * case.timed.len())
}

/// How often a replay makes the timed calls: in plain Rust they shall last twice as long as the building.
fn turns(case: &Case) -> usize {
    let mut heap = Heap::fresh(case.m);
    let mut time = |turns| timed(1, &mut heap, &mut works::replay::<Plain>(&case.list(turns)));
    let building = time(0);
    let mut turns = 200_usize.div_ceil(case.timed.len());
    while 2 * turns * case.timed.len() <= MOST_CALLS && time(turns) < 3.0 * building {
        turns *= 2;
    }
    turns
}

fn in_take(kind: &SearchKind, m: u32) -> Cell {
    let take = (kind.take)(&(kind.case)(m))?;
    let with = [works::run::<Ours>(&take.whole), works::run::<Plain>(&take.whole)];
    let without = [works::run::<Ours>(&take.building), works::run::<Plain>(&take.building)];
    difference(m, with, without, records_of(&take.whole) - records_of(&take.building))
}

/// What each contender needs for the operations that it makes with, and does not make without.
fn difference<'a>(m: u32, with: [Work<'a>; 2], without: [Work<'a>; 2], operations: usize) -> Cell {
    let ([a, b], [c, d]) = (with, without);
    let [ours, plain, ours_without, plain_without] = race(operations, &mut Heap::fresh(m), [a, b, c, d]);
    Some([ours - ours_without, plain - plain_without])
}
