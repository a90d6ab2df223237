//! Demand 3 on random lists: the whole list against the ledger, and what the buffers then say of each block
//! that is live by the history.

use crate::call::Call;
use crate::ledger::{damaged, order_needed, ranges, Block, Ledger};
use crate::random::{self, Rng};
use crate::subject::{Answer, Subject};

const MARK: u32 = 1 << 31;

/// Random lists from a fresh heap. Gives the count of calls made.
pub fn lists<S: Subject>(rng: &mut Rng, lists: u32) -> usize {
    let mut made = 0;
    for _ in 0..lists {
        let m = if rng.once_in(40) { rng.within(11, 16) } else { rng.within(5, 10) };
        let length = rng.within(0, 60);
        made += one_list::<S>(rng, m, length);
    }
    made
}

fn one_list<S: Subject>(rng: &mut Rng, m: u32, length: u32) -> usize {
    let mut arena = rng.bytes(1 << m);
    let mut table = rng.bytes(1 << (m - 4));
    assert_eq!(S::fresh(&mut arena, &mut table), Answer { number: 0, value: 0 });
    let mut ledger = Ledger::new(m);
    let mut history: Vec<(Call, Answer)> = Vec::new();
    let mut known = Vec::new();
    for _ in 0..length {
        let call = random::call(rng, &table, m, &known);
        let answer = call.make::<S>(&mut arena, &mut table);
        let expected = ledger.feed(call);
        assert_eq!(answer, expected, "{}: m = {m}, {call:?} after {history:?}", S::NAME);
        if let Call::Get { n } = call {
            no_room_exactly_when_none_free(m, n, answer, &live(&history));
        }
        if answer.number == 0 {
            known.push(answer.value);
        }
        history.push((call, answer));
    }
    assert!(arena == ledger.bytes, "{}: arena after {history:?}", S::NAME);
    assert_eq!(table, ledger.table(), "{}: table after {history:?}", S::NAME);
    assert!(!damaged(&table, m), "{}: damaged after {history:?}", S::NAME);
    let mut blocks = live(&history);
    let mut pairs: Vec<Block> = ledger.pairs.iter().map(|pair| pair.block).collect();
    blocks.sort();
    pairs.sort();
    // by starts and orders: the locks are in the table, which was compared
    assert_eq!(blocks, pairs, "{}: blocks after {history:?}", S::NAME);
    for (k, &block) in blocks.iter().enumerate() {
        assert!(!blocks[..k].iter().any(|other| other.shares_a_byte(block)), "{}: overlap", S::NAME);
        checks_agree::<S>(rng, &arena, &table, block);
        marks_lead_back::<S>(rng, &arena, &table, block);
    }
    history.len()
}

/// The blocks live by the history: by arguments and answers alone.
fn live(history: &[(Call, Answer)]) -> Vec<Block> {
    let mut blocks = Vec::new();
    for &(call, answer) in history.iter().filter(|(_, answer)| answer.number == 0) {
        match call {
            Call::Get { n } => blocks.push(Block { start: i64::from(answer.value), order: order_needed(n) }),
            Call::Give { p } => blocks.retain(|block: &Block| block.start != i64::from(p)),
            _ => {}
        }
    }
    blocks
}

fn no_room_exactly_when_none_free(m: u32, n: u32, answer: Answer, blocks: &[Block]) {
    if n == 0 || n > 1 << m {
        assert_eq!(answer.number, 10);
        return;
    }
    let stood = (order_needed(n)..=m)
        .flat_map(|k| ranges(m, k))
        .any(|range| !blocks.iter().any(|block| block.shares_a_byte(range)));
    assert_eq!(answer.number == 21, !stood, "get {n} with {blocks:?}");
}

/// The public check passes exactly for the sums that lie in the block.
fn checks_agree<S: Subject>(rng: &mut Rng, arena: &[u8], table: &[u8], block: Block) {
    for _ in 0..12 {
        let h = block.start + i64::from(rng.below(block.size() as u32));
        let i = match rng.below(4) {
            0 => (block.start - h - i64::from(rng.below(2))) as u32,
            1 => (block.end() - h + i64::from(rng.below(2))) as u32,
            _ => random::distance(rng, 16),
        };
        let inside = block.holds(h + i64::from(i as i32));
        let expected = Answer { number: 0, value: u32::from(inside) };
        assert_eq!(S::check(arena, table, h as u32, i), expected, "{}: check {h} {i} in {block:?}", S::NAME);
    }
}

/// Each marked pointer in reach leads back to the block.
fn marks_lead_back<S: Subject>(rng: &mut Rng, arena: &[u8], table: &[u8], block: Block) {
    for away in 1..=8 {
        for address in [block.start - away, block.end() + away] {
            let target = block.start + i64::from(rng.below(block.size() as u32));
            let marked = address as u32 | MARK;
            let answer = S::step(arena, table, marked, (target - address) as u32);
            assert_eq!(answer, Answer { number: 0, value: target as u32 }, "{}: {marked} in {block:?}", S::NAME);
        }
    }
}
