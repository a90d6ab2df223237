//! Two heaps that differ only in the bytes of one live block, and the calls that tell them apart.

use std::ops::Range;

use crate::call::Call;
use crate::differential::buffers;
use crate::ledger::{order_of, Block};
use crate::plain::heap::BASE;
use crate::random::{self, Rng};
use crate::subject::{Answer, Subject};

/// A damaged table has orders up to 127. A block of this order already holds every address from its start on.
const WHOLE: u32 = 40;

/// What stays out of a list until the block is given back.
#[derive(Clone, Copy, Debug, PartialEq, Eq)]
pub enum Bar {
    /// Calls that reveal the block.
    Reveals,
    /// Reads and copies whose source pointer lies in the block, refused or not.
    Pointer,
    Nothing,
}

/// Whether an accepted read shows a byte of the block, or an accepted copy carries one out of it.
pub fn reveals(block: Block, call: Call, answer: Answer) -> bool {
    let inside = |p: u32, j: u32| block.holds(i64::from(p) + i64::from(j));
    match call {
        _ if answer.number != 0 => false,
        Call::Read { p, w } => (0..u32::from(w)).any(|j| inside(p, j)),
        Call::Copy { p, q, .. } => (0..answer.value).any(|j| inside(q, j) && !inside(p, j)),
        _ => false,
    }
}

/// Whether a read or a copy source lies in the block, by its pointer, refused or not.
pub fn source_in(block: Block, call: Call) -> bool {
    match call {
        Call::Read { p, .. } => block.holds(i64::from(p)),
        Call::Copy { q, .. } => block.holds(i64::from(q)),
        _ => false,
    }
}

#[derive(Clone)]
struct Heap {
    arena: Vec<u8>,
    table: Vec<u8>,
}

/// Two heaps with one table, whose arenas are equal but for the block.
pub struct Twins {
    heaps: [Heap; 2],
    pub block: Block,
    pub given_back: bool,
    m: u32,
    known: Vec<u32>,
}

impl Twins {
    /// Every byte of the block differs. One case in four has any table and lengths, the others are sound and fit.
    pub fn new(rng: &mut Rng, largest: u32) -> Twins {
        loop {
            let m = rng.arena_order(largest);
            let (arena, table) = match rng.below(4) {
                0 => buffers(rng, m),
                _ => (rng.bytes(1 << m), random::sound_table(rng, m)),
            };
            if let Some(block) = live_block(rng, &table) {
                let heap = Heap { arena, table };
                let heaps = [heap.clone(), heap];
                let mut twins = Twins { heaps, block, given_back: false, m, known: Vec::new() };
                let range = twins.range();
                twins.heaps[1].arena[range].iter_mut().for_each(|byte| *byte ^= rng.within(1, 255) as u8);
                return twins;
            }
        }
    }

    /// The block's address as a pointer.
    pub fn start(&self) -> u32 {
        self.block.start as u32
    }

    /// A random call. Every other one is turned to the block; step and left, which move no byte, then become copies.
    pub fn call(&self, rng: &mut Rng) -> Call {
        let p = inside(rng, self.block);
        match random::call(rng, &self.heaps[0].table, self.m, &self.known) {
            call if rng.once_in(2) => call,
            // so that its memory is used again
            Call::Get { .. } => Call::Get { n: rng.within(1, size(self.block)) },
            Call::Give { .. } => Call::Give { p: rng.pick(&[p, self.start()]) },
            Call::Read { w, .. } => Call::Read { p, w },
            Call::Write { w, v, .. } => Call::Write { p, w, v },
            Call::Fill { v, n, .. } => Call::Fill { p, v, n },
            Call::Lock { .. } => Call::Lock { p },
            Call::Unlock { .. } => Call::Unlock { p },
            Call::Grid { rows, columns, row, column, .. } => Call::Grid { p, rows, columns, row, column },
            Call::Step { .. } | Call::Left { .. } | Call::Copy { .. } => self.copy(rng),
        }
    }

    /// A copy out of the block, into it or within it.
    fn copy(&self, rng: &mut Rng) -> Call {
        let table = &self.heaps[0].table;
        let here = inside(rng, self.block);
        let there = match rng.below(3) {
            0 => inside(rng, self.block),
            1 => random::pointer(rng, table, &self.known),
            _ => live_block(rng, table).map_or(here, |block| inside(rng, block)),
        };
        let (p, q) = rng.pick(&[(here, there), (there, here)]);
        let n = if rng.once_in(4) { 0 } else { random::amount(rng, self.m) };
        Call::Copy { p, q, n }
    }

    /// What the first heap would answer.
    pub fn tried<S: Subject>(&self, call: Call) -> Answer {
        let Heap { mut arena, mut table } = self.heaps[0].clone();
        call.make::<S>(&mut arena, &mut table)
    }

    /// Whether the bar keeps the call out of the list.
    pub fn barred<S: Subject>(&self, bar: Bar, call: Call) -> bool {
        match bar {
            _ if self.given_back => false,
            Bar::Reveals => reveals(self.block, call, self.tried::<S>(call)),
            Bar::Pointer => source_in(self.block, call),
            Bar::Nothing => false,
        }
    }

    /// Makes the call on both heaps. Gives the first's answer, and what tells the two apart now. That is never the
    /// tables, whatever was revealed: no change of a table depends on the arena's bytes.
    pub fn make<S: Subject>(&mut self, call: Call) -> (Answer, Option<&'static str>) {
        let answers = self.heaps.each_mut().map(|heap| call.make::<S>(&mut heap.arena, &mut heap.table));
        let [first, second] = &self.heaps;
        assert_eq!(first.table, second.table, "{}: tables after {call:?}", S::NAME);
        let answer = answers[0];
        if answer.number == 0 {
            self.known.push(answer.value);
            self.given_back |= call == Call::Give { p: self.start() };
        }
        let apart = if answers[0] != answers[1] {
            Some("the answers")
        } else if self.differ_outside() {
            Some("the arenas outside the block")
        } else {
            None
        };
        (answer, apart)
    }

    /// The part of the arena that the block has: on a damaged table or wrong lengths less than its size, or nothing.
    fn range(&self) -> Range<usize> {
        let offset = |address: i64| ((address - i64::from(BASE)) as usize).min(self.heaps[0].arena.len());
        offset(self.block.start)..offset(self.block.end() + 1)
    }

    fn differ_outside(&self) -> bool {
        let Range { start, end } = self.range();
        let [first, second] = self.heaps.each_ref().map(|heap| &heap.arena);
        first[..start] != second[..start] || first[end..] != second[end..]
    }

    /// Whether some byte that no block holds differs.
    pub fn free_bytes_differ(&self) -> bool {
        let [first, second] = &self.heaps;
        self.range().any(|at| first.arena[at] != second.arena[at] && first.table.get(at / 16) == Some(&0))
    }
}

/// The block's size, at most that of the largest arena.
fn size(block: Block) -> u32 {
    1 << block.order.min(16)
}

/// An address of the block, often one where a read or write of 2 or 4 bytes goes past its end.
fn inside(rng: &mut Rng, block: Block) -> u32 {
    let size = size(block);
    let offset = if rng.once_in(3) { size - rng.within(1, size.min(3)) } else { rng.below(size) };
    block.start as u32 + offset
}

/// One of the blocks that are live by the table, damaged or not: the slot of its start has its order, and its start is
/// a multiple of its size.
fn live_block(rng: &mut Rng, table: &[u8]) -> Option<Block> {
    let mut blocks = Vec::new();
    for (slot, &entry) in (0..).zip(table).filter(|(_, &entry)| entry != 0) {
        let order = order_of(entry).min(WHOLE);
        // below order 4 a slot has several starts
        let offset = (16 * slot + i64::from(rng.below(16))) >> order << order;
        if offset / 16 == slot {
            blocks.push(Block { start: i64::from(BASE) + offset, order });
        }
    }
    (!blocks.is_empty()).then(|| rng.pick(&blocks))
}
