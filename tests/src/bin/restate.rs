//! Stores the vectors' answers anew where a request changes them: what both references give, and nothing at all if they
//! differ in one. Prints each file that changes, with the count of its changed lines. The library has no part in it.

use std::fs;
use std::path::Path;
use tulivombe_tests::literal::Literal;
use tulivombe_tests::subject::Plain;
use tulivombe_tests::vectors::{stored, text, Stored};

fn main() {
    let agreed = |stored: Stored| {
        let by_plain = stored.answered::<Plain>();
        assert_eq!(by_plain, stored.answered::<Literal>(), "the references differ: {}", stored.path.display());
        (stored.path, by_plain)
    };
    let all: Vec<_> = stored().into_iter().map(agreed).collect();
    for (path, new) in all {
        store(&path, &new);
    }
}

fn store(path: &Path, new: &str) {
    let old = text(path);
    if old != new {
        let changed = old.lines().zip(new.lines()).filter(|(old, new)| old != new).count();
        println!("{}: {changed} of {} lines", path.display(), new.lines().count());
        fs::write(path, new).unwrap_or_else(|e| panic!("{}: {e}", path.display()));
    }
}
