//! Files of Rattle or antt that no crate of crates.txt has: nothing proves them.

use super::{finding, is_source, place, Finding, Repository};

pub fn in_no_crate(repository: &Repository) -> Vec<Finding> {
    let crates = repository.crates();
    let listed = |path: &str| is_source(path) && place(path).is_some_and(|(name, _)| crates.contains(&name));
    let files = repository.paths().filter(|path| path.ends_with(".rt") || path.ends_with(".antt"));
    files
        .filter(|path| !listed(path))
        .map(|path| finding(path, 1, "no crate of crates.txt has it".to_string()))
        .collect()
}

#[test]
fn a_file_of_no_crate_is_found() {
    let in_crates = ["crates/a/src/lib.rt", "crates/a/proofs/f/Answers.antt", "crates/c/src/lib.rt"];
    let strays = ["crates/b/src/lib.rt", "crates/a/A.antt", "docs/x.rt"];
    let mut files: Vec<_> = in_crates.iter().chain(&strays).map(|path| (*path, "")).collect();
    files.push(("crates.txt", "# b: c\na: c\nc staticlib: d # b\n"));
    let expected = ["crates/a/A.antt", "crates/b/src/lib.rt", "docs/x.rt"];
    let expected = expected.map(|path| format!("{path}:1: no crate of crates.txt has it"));
    assert_eq!(super::found(in_no_crate, &files), expected);
}
