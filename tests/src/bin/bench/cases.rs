//! The tables that searches are measured on, with the calls that build them and those that are timed.

use crate::tables::Heap;
use crate::{files, works};
use tulivombe_tests::call::Call;
use tulivombe_tests::plain::heap::BASE;
use tulivombe_tests::plain::takes;
use tulivombe_tests::random::Rng;
use tulivombe_tests::subject::Plain;

pub struct Case {
    pub m: u32,
    /// The calls that make the table of a fresh one.
    pub building: Vec<Call>,
    /// The calls to time, gets and gives. They leave the table as they found it.
    pub timed: Vec<Call>,
}

/// A take that builds a table and goes on with the calls to time to its end, and one that only builds.
pub struct Take {
    pub whole: Vec<u8>,
    pub building: Vec<u8>,
}

pub struct SearchKind {
    pub name: &'static str,
    /// The case at order m.
    pub case: fn(u32) -> Case,
    /// None where the building would fill more than half of a file.
    pub take: fn(&Case) -> Option<Take>,
}

pub const SEARCHED: [SearchKind; 6] = [
    SearchKind { name: "churn", case: churn, take: churning },
    SearchKind { name: "full", case: full, take: Case::take },
    SearchKind { name: "empty", case: empty, take: Case::take },
    SearchKind { name: "every other", case: every_other, take: Case::take },
    SearchKind { name: "every other, 32 bytes", case: every_other_refused, take: Case::take },
    SearchKind { name: "far end", case: far_end, take: Case::take },
];

impl Case {
    /// The heap with the table, on which plain Rust made the timed calls once to see that they leave it so.
    pub fn heap(&self) -> Heap {
        let mut heap = Heap::after(self.m, &self.building);
        let table = heap.table.clone();
        for call in &self.timed {
            let answer = call.make::<Plain>(&mut heap.arena, &mut heap.table);
            assert!(answer.number == 0 || matches!(call, Call::Get { .. }), "{call:?} is refused, m = {}", self.m);
        }
        assert!(heap.table == table, "the timed calls change the table, m = {}", self.m);
        heap
    }

    /// The calls as replay takes them, the timed ones `turns` times.
    pub fn list(&self, turns: usize) -> Vec<u8> {
        let timed = self.timed.iter().cycle().take(turns * self.timed.len());
        self.building.iter().chain(timed).flat_map(|call| call.encode()).collect()
    }

    fn take(&self) -> Option<Take> {
        let first = files::records(self.m, &self.building);
        let building = files::take(self.m, &first, &[], first.len());
        if files::records_of(&building) < first.len() || building.len() > takes::LONGEST / 2 {
            return None;
        }
        let mut heap = Heap::fresh(self.m);
        works::run::<Plain>(&building)(&mut heap);
        assert!(heap.table == self.heap().table, "the take builds another table, m = {}", self.m);
        let all = files::records(self.m, &[&self.building[..], &self.timed].concat());
        Some(Take { whole: files::take(self.m, &first, &all[first.len()..], usize::MAX), building })
    }
}

/// A churn of its own, as the registers hold fewer blocks.
fn churning(case: &Case) -> Option<Take> {
    Some(Take { whole: files::churning_take(case.m), building: files::take(case.m, &[], &[], 0) })
}

/// Gets and gives of many sizes with up to sixty blocks live, and at last all of them given back.
fn churn(m: u32) -> Case {
    let rng = &mut Rng::new(5);
    let mut heap = Heap::fresh(m);
    let mut live = Vec::new();
    let mut timed = Vec::new();
    while timed.len() < 1_000 || !live.is_empty() {
        let give = timed.len() >= 1_000 || live.len() > 60 || (!live.is_empty() && rng.once_in(2));
        let call = if give {
            Call::Give { p: live.swap_remove(rng.below(live.len() as u32) as usize) }
        } else {
            let order = rng.within(4, (m - 5).max(4));
            Call::Get { n: 1 + rng.below(1 << order) }
        };
        let answer = call.make::<Plain>(&mut heap.arena, &mut heap.table);
        if let (Call::Get { .. }, 0) = (call, answer.number) {
            live.push(answer.value);
        }
        timed.push(call);
    }
    Case { m, building: Vec::new(), timed }
}

const SLOT: Call = Call::Get { n: 16 };

fn slots(m: u32) -> u32 {
    1 << (m - 4)
}

/// A get of one slot, found at a place and given back.
fn found_at(slot: u32) -> Vec<Call> {
    vec![SLOT, Call::Give { p: BASE + 16 * slot }]
}

fn full(m: u32) -> Case {
    Case { m, building: vec![SLOT; slots(m) as usize], timed: vec![SLOT] }
}

fn empty(m: u32) -> Case {
    Case { m, building: Vec::new(), timed: found_at(0) }
}

/// Every even slot taken. All must be taken first, since a get prefers a single free slot.
fn every_other(m: u32) -> Case {
    let mut building = full(m).building;
    building.extend((1..slots(m)).step_by(2).map(|slot| Call::Give { p: BASE + 16 * slot }));
    Case { m, building, timed: found_at(1) }
}

fn every_other_refused(m: u32) -> Case {
    Case { timed: vec![Call::Get { n: 32 }], ..every_other(m) }
}

/// One block of each order below m, from large to small, and one free slot behind them.
fn far_end(m: u32) -> Case {
    let building = (4..m).rev().map(|order| Call::Get { n: 1 << order }).collect();
    Case { m, building, timed: found_at(slots(m) - 1) }
}
