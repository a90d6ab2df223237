//! Timing: works take turns on one heap, and the best round of each counts.

use crate::tables::Heap;
use std::hint::black_box;
use std::time::{Duration, Instant};

/// What one contender does. It leaves the heap such that it, and the others after it, can do the same again. The number
/// is made of its answers, so that the compiler can't leave them out.
pub type Work<'a> = Box<dyn FnMut(&mut Heap) -> u32 + 'a>;

/// How long a race lasts.
pub const RACE: Duration = Duration::from_millis(200);
/// However long they last, each work has so many rounds.
const ROUNDS: u32 = 20;
/// Nanoseconds that a round of one work lasts at least.
const ROUND: f64 = 20_000.0;

/// Nanoseconds for one of the `operations` that each work does, in its best round.
pub fn race<const N: usize>(operations: usize, heap: &mut Heap, mut works: [Work; N]) -> [f64; N] {
    let repeats = works.each_mut().map(|work| repeats(heap, work));
    let mut best = [f64::INFINITY; N];
    let mut rounds = 0;
    let start = Instant::now();
    while rounds < ROUNDS || start.elapsed() < RACE {
        for k in 0..N {
            best[k] = best[k].min(timed(repeats[k], heap, &mut works[k]) / f64::from(repeats[k]));
        }
        rounds += 1;
    }
    best.map(|ns| ns / operations as f64)
}

/// How often a work is done in a round. One slow try does not count: the processor may have done something else.
fn repeats(heap: &mut Heap, work: &mut Work) -> u32 {
    let mut repeats = 1;
    while (0..3).any(|_| timed(repeats, heap, work) < ROUND) {
        repeats *= 2;
    }
    repeats
}

/// Nanoseconds in all.
pub fn timed(repeats: u32, heap: &mut Heap, work: &mut Work) -> f64 {
    let start = Instant::now();
    let all = (0..repeats).fold(0, |all, _| all ^ work(heap));
    black_box(all);
    start.elapsed().as_nanos() as f64
}
