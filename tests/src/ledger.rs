//! The ledger of document 01, with the landed requests of document 02, and the definitions on tables that it does
//! without. Slow and literal: what `plain` computes in one pass is written here as the papers say it.

use crate::call::{Call, CALLS};
use crate::subject::Answer;
use std::collections::BTreeMap;

const BASE: i64 = 65_536;
const MARK: u32 = 2_147_483_648;

/// The numbers of the calls in the order in which they are judged: a refused call gives the first that applies. They
/// rise, but 27 is "judged just before 22", 13 "after 20, 27 and 22" and 30 "after 12"; 28 is "judged last".
pub const JUDGED: [u32; 14] = [8, 10, 11, 12, 30, 20, 21, 27, 22, 13, 23, 24, 25, 28];

/// Numbers that can refuse a call, each with whether it applies.
pub type Refusals = Vec<(u32, bool)>;

/// Of the numbers that apply, the one that is judged first.
pub fn first(refusals: &Refusals) -> Option<u32> {
    assert!(refusals.iter().all(|(number, _)| JUDGED.contains(number)), "a number has no place: {refusals:?}");
    JUDGED.into_iter().find(|&number| refusals.contains(&(number, true)))
}

/// What can refuse each direct call, by its name and in judging order. 8 and 20 speak of the lent buffers; the ledger
/// judges the rest. check and show, which are in no list, are refused as left is, and fresh by the lengths alone.
pub fn can_refuse() -> BTreeMap<&'static str, Vec<u32>> {
    let by_ledger = |call| Ledger::new(5).refusals(call).into_iter().map(|(number, _)| number);
    let judged = |call| {
        let numbers: Vec<u32> = by_ledger(call).chain([8, 20]).collect();
        (call.name(), JUDGED.into_iter().filter(|number| numbers.contains(number)).collect())
    };
    let mut all: BTreeMap<_, Vec<u32>> = CALLS.into_iter().map(judged).collect();
    all.insert("check", all["left"].clone());
    all.insert("show", all["left"].clone());
    all.insert("fresh", vec![8]);
    all
}

/// What can refuse each record of a take. A run has judged the lengths, and its table is never damaged. again and set
/// make no call, and nothing refuses them.
pub fn can_refuse_records() -> BTreeMap<&'static str, Vec<u32>> {
    let mut all = can_refuse();
    all.retain(|name, _| CALLS.iter().any(|call| call.name() == *name));
    all.values_mut().for_each(|numbers| numbers.retain(|number| ![8, 20].contains(number)));
    all.extend([("again", Vec::new()), ("set", Vec::new())]);
    all
}

/// A block by its first address and order, or any aligned range by them.
#[derive(Clone, Copy, Debug, PartialEq, Eq, PartialOrd, Ord)]
pub struct Block {
    pub start: i64,
    pub order: u32,
}

impl Block {
    pub fn size(self) -> i64 {
        2i64.pow(self.order)
    }

    pub fn end(self) -> i64 {
        self.start + self.size() - 1
    }

    pub fn holds(self, address: i64) -> bool {
        self.start <= address && address <= self.end()
    }

    pub fn shares_a_byte(self, other: Block) -> bool {
        self.start <= other.end() && other.start <= self.end()
    }
}

/// A pair of the ledger: start and order, and since request 7 whether the block is locked.
#[derive(Clone, Copy, Debug, PartialEq, Eq)]
pub struct Pair {
    pub block: Block,
    pub locked: bool,
}

/// "The top bit of a table entry, 128, says that the block is locked".
pub fn locked_by(entry: u8) -> bool {
    entry / 128 == 1
}

/// "the other bits remain the order". Of a free slot it is 0.
pub fn order_of(entry: u8) -> u32 {
    u32::from(entry % 128)
}

/// The order that a get of n bytes needs.
pub fn order_needed(n: u32) -> u32 {
    (4..).find(|&e| i64::from(n) <= 2i64.pow(e)).expect("some power is large enough")
}

/// All aligned ranges of order k in an arena of order m, from the left.
pub fn ranges(m: u32, k: u32) -> impl Iterator<Item = Block> {
    (0..2i64.pow(m - k)).map(move |j| Block { start: BASE + j * 2i64.pow(k), order: k })
}

/// The address that a pointer's home is sought at.
pub fn sought(p: u32) -> i64 {
    let address = i64::from(p % MARK);
    if p < MARK {
        address
    } else if address % 16 < 8 {
        address - 16
    } else {
        address + 16
    }
}

/// Whether a table of an arena of order m is damaged, slot by slot: by an order that is neither 0 nor 4 to m, by a free
/// slot with the top bit set, or by a slot of a block with another order or another top bit.
pub fn damaged(table: &[u8], m: u32) -> bool {
    (0..table.len()).any(|slot| {
        let (order, locked) = (order_of(table[slot]), locked_by(table[slot]));
        if order == 0 {
            return locked;
        }
        if order < 4 || order > m {
            return true;
        }
        let slots = 2usize.pow(order - 4);
        let first = slot - slot % slots;
        (first..first + slots).any(|other| order_of(table[other]) != order || locked_by(table[other]) != locked)
    })
}

#[derive(Clone, Debug)]
pub struct Ledger {
    pub m: u32,
    pub pairs: Vec<Pair>,
    pub bytes: Vec<u8>,
}

impl Ledger {
    pub fn new(m: u32) -> Ledger {
        Ledger { m, pairs: Vec::new(), bytes: vec![0; 2usize.pow(m)] }
    }

    pub fn home(&self, p: u32) -> Option<Block> {
        self.pairs.iter().map(|pair| pair.block).find(|block| block.holds(sought(p)))
    }

    /// Whether a pointer has a home, and that is locked.
    pub fn locked(&self, p: u32) -> bool {
        self.pairs.iter().any(|pair| pair.block.holds(sought(p)) && pair.locked)
    }

    /// Whether the address that a pointer's home is sought at lies outside the arena.
    pub fn outside(&self, p: u32) -> bool {
        !Block { start: BASE, order: self.m }.holds(sought(p))
    }

    /// Whether it lies in the arena, in a slot that no pair's range holds.
    fn at_a_free_slot(&self, p: u32) -> bool {
        !self.outside(p) && self.home(p).is_none()
    }

    /// For each slot, whether no pair's range holds it.
    fn free_slots(&self) -> Vec<bool> {
        self.table().iter().map(|&entry| entry == 0).collect()
    }

    /// Where a block of order e is put: orders upward, ranges from the left.
    pub fn placing(&self, e: u32) -> Option<i64> {
        let slots = self.free_slots();
        let free = |range: Block| {
            let first = (range.start - BASE) / 16;
            (first..first + range.size() / 16).all(|slot| slots[slot as usize])
        };
        let maximal = |range: Block| {
            let twice = 2 * range.size();
            let round = Block { start: BASE + (range.start - BASE) / twice * twice, order: range.order + 1 };
            range.order == self.m || !free(round)
        };
        let range = (e..=self.m).flat_map(|k| ranges(self.m, k)).find(|&range| free(range) && maximal(range));
        range.map(|range| range.start)
    }

    /// The one table of the pairs.
    pub fn table(&self) -> Vec<u8> {
        let mut table = vec![0; 2usize.pow(self.m - 4)];
        for &Pair { block, locked } in &self.pairs {
            let first = ((block.start - BASE) / 16) as usize;
            let entry = block.order + if locked { 128 } else { 0 };
            table[first..first + (block.size() / 16) as usize].fill(entry as u8);
        }
        table
    }

    /// Judges and carries out one call.
    pub fn feed(&mut self, call: Call) -> Answer {
        match first(&self.refusals(call)) {
            Some(number) => Answer { number, value: 0 },
            None => Answer { number: 0, value: self.accept(call) },
        }
    }

    /// The numbers that can refuse a call, but for 8 and 20, which the ledger does without.
    pub fn refusals(&self, call: Call) -> Refusals {
        let any_marked = |pointers: &[u32]| (13, pointers.iter().any(|&p| p >= MARK));
        let bad_width = |w: u8| (11, ![1, 2, 4].contains(&w));
        let too_wide = |w: u8, v: u32| (12, i64::from(v) >= 256i64.pow(u32::from(w.min(4))));
        let past = |p: u32, count: i64| (25, self.home(p).is_some_and(|home| i64::from(p) + count - 1 > home.end()));
        let locked = |p: u32| (28, self.locked(p));
        let own = match call {
            Call::Get { n } => {
                let bad = n == 0 || i64::from(n) > 2i64.pow(self.m);
                vec![(10, bad), (21, !bad && self.placing(order_needed(n)).is_none())]
            }
            Call::Give { p } => {
                let inside = self.home(p).is_some_and(|home| home.start != i64::from(p));
                vec![any_marked(&[p]), (23, inside), locked(p)]
            }
            Call::Step { p, i } => {
                let r = i64::from(p % MARK) + i64::from(i as i32);
                let beyond = self.home(p).is_some_and(|home| r < home.start - 8 || r > home.end() + 8);
                vec![(24, beyond)]
            }
            Call::Read { p, w } => vec![bad_width(w), any_marked(&[p]), past(p, w.into())],
            Call::Write { p, w, v } => {
                vec![bad_width(w), too_wide(w, v), any_marked(&[p]), past(p, w.into()), locked(p)]
            }
            Call::Left { p } | Call::Lock { p } | Call::Unlock { p } => vec![any_marked(&[p])],
            Call::Copy { p, q, .. } => vec![any_marked(&[p, q]), locked(p)],
            Call::Fill { p, .. } => vec![any_marked(&[p]), locked(p)],
            Call::Grid { p, rows, columns, row, column } => {
                // "The grid, rows x columns bytes from a, must lie in a's home", whichever place is asked for
                let bytes = i64::from(rows) * i64::from(columns);
                vec![(30, row >= rows || column >= columns), any_marked(&[p]), past(p, bytes)]
            }
        };
        [own, self.missing(&call.pointers())].concat()
    }

    /// Both kinds of missing: of several pointers one is enough for either.
    fn missing(&self, pointers: &[u32]) -> Refusals {
        if pointers.is_empty() {
            return Vec::new();
        }
        let any = |test: fn(&Ledger, u32) -> bool| pointers.iter().any(|&p| test(self, p));
        vec![(27, any(Ledger::outside)), (22, any(Ledger::at_a_free_slot))]
    }

    fn accept(&mut self, call: Call) -> u32 {
        match call {
            Call::Get { n } => self.add(order_needed(n)),
            Call::Give { p } => {
                self.pairs.retain(|pair| pair.block.start != i64::from(p));
                0
            }
            Call::Step { p, i } => {
                let r = i64::from(p % MARK) + i64::from(i as i32);
                if self.home(p).expect("it has a home").holds(r) {
                    r as u32
                } else {
                    r as u32 + MARK
                }
            }
            Call::Read { p, w } => {
                (0..i64::from(w)).fold(0, |value, k| value * 256 + u32::from(*self.byte(i64::from(p) + k)))
            }
            Call::Write { p, w, v } => {
                self.store(p, (0..u32::from(w)).rev().map(|place| (v / 256u32.pow(place) % 256) as u8).collect());
                0
            }
            Call::Left { p } => self.left(p) as u32,
            Call::Copy { p, q, n } => {
                let count = i64::from(n).min(self.left(p)).min(self.left(q));
                let before = (0..count).map(|k| *self.byte(i64::from(q) + k)).collect();
                self.store(p, before);
                count as u32
            }
            Call::Fill { p, v, n } => {
                let count = i64::from(n).min(self.left(p));
                self.store(p, vec![v; count as usize]);
                count as u32
            }
            Call::Lock { p } => self.set_lock(p, true),
            Call::Unlock { p } => self.set_lock(p, false),
            Call::Grid { p, columns, row, column, .. } => p + u32::from(row) * u32::from(columns) + u32::from(column),
        }
    }

    /// The pair that the placing rule names is added, not locked, and its bytes are cleared. Gives its start.
    fn add(&mut self, order: u32) -> u32 {
        let start = self.placing(order).expect("not refused 21");
        let block = Block { start, order };
        self.store(start as u32, vec![0; block.size() as usize]);
        self.pairs.push(Pair { block, locked: false });
        start as u32
    }

    /// The pair that holds p is locked from now on, or is not: whatever it was before. Gives the call's value.
    fn set_lock(&mut self, p: u32, locked: bool) -> u32 {
        let home = |pair: &&mut Pair| pair.block.holds(sought(p));
        self.pairs.iter_mut().find(home).expect("it has a home").locked = locked;
        0
    }

    /// Bytes go to the addresses from p on.
    fn store(&mut self, p: u32, bytes: Vec<u8>) {
        for (k, byte) in (0..).zip(bytes) {
            *self.byte(i64::from(p) + k) = byte;
        }
    }

    fn left(&self, p: u32) -> i64 {
        self.home(p).expect("it has a home").end() - i64::from(p) + 1
    }

    fn byte(&mut self, address: i64) -> &mut u8 {
        &mut self.bytes[(address - BASE) as usize]
    }
}
