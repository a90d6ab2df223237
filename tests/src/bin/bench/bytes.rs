//! Fill and copy of 32 KiB.

use crate::files::{records_of, take};
use crate::print::{judged, line, number, title, LINE};
use crate::race::{race, Work};
use crate::tables::Heap;
use crate::{works, Ours};
use tulivombe_tests::call::Call;
use tulivombe_tests::plain::heap::BASE;
use tulivombe_tests::record::Record;
use tulivombe_tests::subject::Plain;

pub const HALF: u32 = 32_768;

const GOAL: f64 = 1.1;

/// The offsets to which and from which is copied.
const COPIES: [(&str, u32, u32); 7] = [
    ("copy, apart", HALF, 0),
    ("copy, 1 upward", 1, 0),
    ("copy, 16 upward", 16, 0),
    ("copy, 64 upward", 64, 0),
    ("copy, 1 downward", 0, 1),
    ("copy, 16 downward", 0, 16),
    ("copy, 64 downward", 0, 64),
];

pub fn section() {
    in_takes();
    directly();
}

fn table(text: &str) {
    let more =
        ["with n = 0", "memset or memmove ns", "above n = 0, to plain Rust", "above n = 0, to memset or memmove"];
    title(text, &[&LINE[..], &more].concat());
}

/// The whole times, and what they are above the same call with n = 0, which costs all but the bytes. The bytes alone
/// are timed with such a call before them: it brings table and file into the first cache, where there may be no room
/// for them beside the bytes. All three ratios have the goal.
fn table_line<'a>(name: &str, times: usize, heap: &mut Heap, works: impl Fn(u32) -> [Work<'a>; 2], bytes: Work<'a>) {
    let ([ours, plain], [our_none, plain_none], [none, _]) = (works(HALF), works(0), works(0));
    let all = [ours, plain, our_none, plain_none, works::then(none, bytes)];
    let [ours, plain, our_none, plain_none, both] = race(times, heap, all);
    let bytes = both - our_none;
    let [to_plain, to_bytes] = [plain - plain_none, bytes].map(|other| judged((ours - our_none) / other, GOAL));
    line(name, GOAL, [ours, plain], &[number(our_none), number(bytes), to_plain, to_bytes]);
}

fn in_takes() {
    table("32 KiB in a take, a record");
    let two = [Record::Get { d: 0, n: HALF }, Record::Get { d: 1, n: HALF }];
    let fill = |n| Record::Fill { d: 2, a: 0, v: 7, n };
    take_line("fill", &two, fill, |times| works::memset(7, HALF, times));
    for (name, to, from) in COPIES {
        let apart = to.max(from);
        let one = [Record::Get { d: 0, n: 2 * HALF }, Record::Step { d: 1, a: 0, i: apart }];
        let first = if apart == HALF { two } else { one };
        let (a, b) = if to > from { (1, 0) } else { (0, 1) };
        let copy = |n| Record::Copy { d: 2, a, b, n };
        take_line(name, &first, copy, |times| works::memmove(to, from, HALF, times));
    }
}

/// A take of one record again and again.
fn take_line<'a>(name: &str, first: &[Record], record: impl Fn(u32) -> Record, bytes: impl Fn(usize) -> Work<'a>) {
    let [whole, none] = [HALF, 0].map(|n| take(16, first, &[record(n)], usize::MAX));
    let times = records_of(&whole);
    let works = |n| {
        let file = if n == 0 { &none } else { &whole };
        [works::run::<Ours>(file), works::run::<Plain>(file)]
    };
    table_line(name, times, &mut Heap::fresh(16), works, bytes(times));
}

fn directly() {
    table("32 KiB by a direct call, with its damage scan");
    let fills = |n| [works::fill::<Ours>(BASE, 7, n), works::fill::<Plain>(BASE, 7, n)];
    table_line("fill", 1, &mut blocks(HALF), fills, works::memset(7, HALF, 1));
    for (name, to, from) in COPIES {
        let (p, q) = (BASE + to, BASE + from);
        let copies = |n| [works::copy::<Ours>(p, q, n), works::copy::<Plain>(p, q, n)];
        table_line(name, 1, &mut blocks(to.max(from)), copies, works::memmove(to, from, HALF, 1));
    }
}

/// Two blocks of 32 KiB, or one of 64 KiB where the ranges overlap.
pub fn blocks(apart: u32) -> Heap {
    let calls = if apart == HALF { vec![Call::Get { n: HALF }; 2] } else { vec![Call::Get { n: 2 * HALF }] };
    Heap::after(16, &calls)
}
