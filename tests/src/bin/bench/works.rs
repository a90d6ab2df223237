//! What the contenders do. The arguments of a call lie in its work, where the compiler does not see them: it can't make
//! code for these arguments alone.

use crate::race::Work;
use crate::tables::Heap;
use std::hint::black_box;
use tulivombe_tests::call::Call;
use tulivombe_tests::plain::heap::BASE;
use tulivombe_tests::plain::runner::{ANSWER, MOST_STEPS};
use tulivombe_tests::subject::{Answer, Subject};

/// A direct call.
pub fn direct<'a>(call: impl Fn(&mut [u8], &mut [u8]) -> Answer + 'a) -> Work<'a> {
    Box::new(move |heap| trace(call(&mut heap.arena, &mut heap.table)))
}

/// All of an answer in one number.
fn trace(answer: Answer) -> u32 {
    answer.number ^ answer.value
}

pub fn left<'a>(p: u32, left: impl Fn(&[u8], &[u8], u32) -> Answer + 'a) -> Work<'a> {
    direct(move |arena, table| left(arena, table, p))
}

/// A left that meets no block: nearly all of it is the damage scan.
pub fn scan<'a>(left_call: impl Fn(&[u8], &[u8], u32) -> Answer + 'a) -> Work<'a> {
    left(0, left_call)
}

pub fn step<'a>(p: u32, i: u32, step: impl Fn(&[u8], &[u8], u32, u32) -> Answer + 'a) -> Work<'a> {
    direct(move |arena, table| step(arena, table, p, i))
}

pub fn read<'a, S: Subject + 'a>(p: u32, w: u8) -> Work<'a> {
    direct(move |arena, table| S::read(arena, table, p, w))
}

pub fn write<'a, S: Subject + 'a>(p: u32, w: u8, v: u32) -> Work<'a> {
    direct(move |arena, table| S::write(arena, table, p, w, v))
}

/// A place in a grid of as many bytes as a read has.
pub fn grid<'a, S: Subject + 'a>(p: u32, rows: u8, columns: u8) -> Work<'a> {
    direct(move |arena, table| S::grid(arena, table, p, rows, columns, rows - 1, columns - 1))
}

pub fn check<'a, S: Subject + 'a>(p: u32, i: u32) -> Work<'a> {
    direct(move |arena, table| S::check(arena, table, p, i))
}

pub fn fresh<'a, S: Subject + 'a>() -> Work<'a> {
    direct(|arena, table| S::fresh(arena, table))
}

/// A give of the block that holds p, and its entries put back by hand.
pub fn give<'a, S: Subject + 'a>(heap: &Heap, p: u32) -> Work<'a> {
    let slot = (p - BASE) as usize / 16;
    let entry = heap.table[slot];
    let count = 1 << (entry - 4);
    let first = slot / count * count;
    let start = BASE + 16 * first as u32;
    direct(move |arena, table| {
        let answer = S::give(arena, table, start);
        table[first..first + count].fill(entry);
        answer
    })
}

pub fn fill<'a, S: Subject + 'a>(p: u32, v: u8, n: u32) -> Work<'a> {
    direct(move |arena, table| S::fill(arena, table, p, v, n))
}

pub fn copy<'a, S: Subject + 'a>(p: u32, q: u32, n: u32) -> Work<'a> {
    direct(move |arena, table| S::copy(arena, table, p, q, n))
}

/// Gets and gives. One get, or one and its give, is made without a choice that would be timed.
pub fn search<'a>(
    calls: &'a [Call],
    get: impl Fn(&mut [u8], &mut [u8], u32) -> Answer + 'a,
    give: impl Fn(&[u8], &mut [u8], u32) -> Answer + 'a,
) -> Work<'a> {
    match *calls {
        [Call::Get { n }] => direct(move |arena, table| get(arena, table, n)),
        [Call::Get { n }, Call::Give { p }] => Box::new(move |heap| {
            let got = trace(get(&mut heap.arena, &mut heap.table, n));
            got ^ trace(give(&heap.arena, &mut heap.table, p))
        }),
        _ => Box::new(move |heap| {
            calls.iter().fold(0, |all, call| {
                all ^ trace(match *call {
                    Call::Get { n } => get(&mut heap.arena, &mut heap.table, n),
                    Call::Give { p } => give(&heap.arena, &mut heap.table, p),
                    _ => unreachable!("a search is a get or a give"),
                })
            })
        }),
    }
}

pub fn run<'a, S: Subject + 'a>(file: &'a [u8]) -> Work<'a> {
    let mut answers = vec![0; ANSWER * MOST_STEPS];
    Box::new(move |heap| {
        let ran = S::run(file, &mut heap.arena, &mut heap.table, &mut answers, MOST_STEPS as u32);
        assert!(ran.number == 0 && !ran.stopped);
        ran.count
    })
}

pub fn replay<'a, S: Subject + 'a>(list: &'a [u8]) -> Work<'a> {
    let mut answers = vec![0; list.len() / 14 * 5];
    Box::new(move |heap| {
        let number = S::replay(&mut heap.arena, &mut heap.table, list, &mut answers);
        assert_eq!(number, 0);
        number
    })
}

/// `fill` is a call of memset, made several times to stand beside a take of as many records.
pub fn memset<'a>(v: u8, n: u32, times: usize) -> Work<'a> {
    Box::new(move |heap| {
        for _ in 0..times {
            black_box(&mut heap.arena[..n as usize]).fill(v);
        }
        0
    })
}

/// `copy_within` is a call of memmove, between two offsets, made several times.
pub fn memmove<'a>(to: u32, from: u32, n: u32, times: usize) -> Work<'a> {
    Box::new(move |heap| {
        for _ in 0..times {
            black_box(&mut heap.arena).copy_within(from as usize..(from + n) as usize, to as usize);
        }
        0
    })
}

/// One work, and then another.
pub fn then<'a>(mut first: Work<'a>, mut second: Work<'a>) -> Work<'a> {
    Box::new(move |heap| first(heap) ^ second(heap))
}

/// Reads each byte of the table once, many at a time: no scan can be faster.
pub fn read_table<'a>() -> Work<'a> {
    Box::new(|heap| heap.table.iter().fold(0, |all, &entry| all | entry).into())
}
