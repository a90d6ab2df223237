//! Files stored twice: two copies of a vector drift apart.

use super::{finding, Finding, Repository};
use std::collections::HashMap;

/// Copies that must stand: `rt ci` gives a program the file beside its code, and follows no link. Document 01's worked
/// take is `takerun`'s input and the first of the takes that are played.
const COPIES: [[&str; 2]; 1] = [["crates/takerun/stdin", "crates/takes_test/data/000.take"]];

/// The lists of calls that the program `calls` is given.
const CALLS: &str = "crates/calls_test/stdin";

pub fn stored_twice(repository: &Repository) -> Vec<Finding> {
    let copy = |path: &str| COPIES.iter().any(|[copy, _]| *copy == path);
    let mut first: HashMap<&[u8], &str> = HashMap::new();
    let mut findings = different(repository);
    findings.extend(listed_twice(repository));
    for (path, content) in repository.contents().filter(|(path, _)| !copy(path)) {
        match first.get(content) {
            Some(other) => findings.push(finding(path, 1, format!("it has the content of {other}"))),
            None => {
                first.insert(content, path);
            }
        }
    }
    findings
}

/// Copies that are no copies any more.
fn different(repository: &Repository) -> Vec<Finding> {
    let content = |path: &str| repository.contents().find(|(name, _)| *name == path).map(|(_, content)| content);
    let apart = COPIES.iter().filter(|[copy, original]| content(copy) != content(original));
    apart.map(|[copy, original]| finding(copy, 1, format!("it has not the content of {original}"))).collect()
}

/// Lists of calls that a program's input has too.
fn listed_twice(repository: &Repository) -> Vec<Finding> {
    let input = repository.text(CALLS).unwrap_or_default();
    let lists = repository.texts(|path| path.ends_with(".calls")).filter(|(_, list)| input.contains(list));
    lists.map(|(path, _)| finding(path, 1, format!("{CALLS} has these calls"))).collect()
}

#[test]
fn a_list_of_calls_in_a_programs_input_is_found() {
    let files =
        [(CALLS, "heap 5\nleft 1\nheap 6\nleft 2\n"), ("a.calls", "heap 6\nleft 2\n"), ("b.calls", "heap 6\nleft 3\n")];
    assert_eq!(super::found(stored_twice, &files), [format!("a.calls:1: {CALLS} has these calls")]);
}

#[test]
fn a_second_copy_is_found() {
    let [[copy, original]] = COPIES;
    let files = [(copy, "1"), (original, "1"), ("a", "2"), ("b", "3")];
    assert!(super::found(stored_twice, &files).is_empty());
    let files = [(copy, "1"), (original, "1"), ("a", "2"), ("b", "2"), ("examples/worked.take", "1")];
    let expected = [
        "b:1: it has the content of a",
        "examples/worked.take:1: it has the content of crates/takes_test/data/000.take",
    ];
    assert_eq!(super::found(stored_twice, &files), expected);
    let expected = ["crates/takerun/stdin:1: it has not the content of crates/takes_test/data/000.take"];
    assert_eq!(super::found(stored_twice, &[(copy, "1"), (original, "2")]), expected);
}
