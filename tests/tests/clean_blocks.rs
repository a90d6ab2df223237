//! Request 2 of document 02: a block is clean when it is got, and what lies round it keeps its bytes.

use tulivombe_tests::literal::Literal;
use tulivombe_tests::subject::{Plain, Subject};

const BASE: u32 = 65_536;

/// A heap of 2^m bytes whose memory was got whole, filled with v and given back.
fn used<S: Subject>(m: u32, v: u8) -> (Vec<u8>, Vec<u8>) {
    let (mut arena, mut table) = (vec![0x5A; 1 << m], vec![0x5A; 1 << (m - 4)]);
    S::fresh(&mut arena, &mut table);
    assert_eq!(S::get(&mut arena, &mut table, 1 << m).value, BASE);
    assert_eq!(S::fill(&mut arena, &table, BASE, v, 1 << m).value, 1 << m);
    assert_eq!(S::give(&arena, &mut table, BASE).number, 0);
    assert!(arena.iter().all(|&byte| byte == v), "{}: give leaves the bytes", S::NAME);
    (arena, table)
}

/// Gets of n bytes, one after the other, until no memory is free: each clears its block and nothing else.
fn gets<S: Subject>(m: u32, n: u32) {
    let (mut arena, mut table) = used::<S>(m, 0xA5);
    let size = n.next_power_of_two().max(16) as usize;
    let mut expected = arena.clone();
    for start in (0..1 << m).step_by(size) {
        let answer = S::get(&mut arena, &mut table, n);
        assert_eq!((answer.number, answer.value), (0, BASE + start as u32), "{}: get {n}", S::NAME);
        expected[start..start + size].fill(0);
        assert!(arena == expected, "{}: bytes after a get of {n} at {start}, m = {m}", S::NAME);
        // the next get must leave this block's bytes too
        S::fill(&mut arena, &table, answer.value, 0xC3, size as u32);
        expected[start..start + size].fill(0xC3);
    }
}

/// A refused get clears nothing.
fn refused<S: Subject>(m: u32) {
    let (mut arena, mut table) = used::<S>(m, 0xA5);
    assert_eq!(S::get(&mut arena, &mut table, 16).number, 0);
    let before = arena.clone();
    assert_eq!(S::get(&mut arena, &mut table, 1 << m).number, 21);
    assert_eq!(S::get(&mut arena, &mut table, 0).number, 10);
    table[0] = 3;
    assert_eq!(S::get(&mut arena, &mut table, 16).number, 20);
    assert_eq!(S::get(&mut arena, &mut table, 2 << m).number, 10);
    assert_eq!(S::get(&mut arena, &mut table[1..], 16).number, 8);
    assert!(arena == before, "{}: bytes after a refused get, m = {m}", S::NAME);
}

fn all<S: Subject>() {
    for m in 5..=10 {
        for e in 4..=m {
            for n in [(1 << e) / 2 + 1, (1 << e) - 1, 1 << e] {
                gets::<S>(m, n);
            }
        }
        refused::<S>(m);
    }
}

#[test]
fn plain() {
    all::<Plain>();
}

#[test]
fn literal() {
    all::<Literal>();
}

#[cfg(feature = "library")]
#[test]
fn library() {
    all::<tulivombe_tests::library::Library>();
}
