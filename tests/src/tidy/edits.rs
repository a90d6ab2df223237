//! Must-fail edits: each is named in docs/CLAIMS.md, so that a reader knows what it shows, and each changes one place.

use super::claims::{quoted, CLAIMS};
use super::{finding, place, Finding, Repository};
use std::collections::BTreeMap;

/// The edits, each by its path, its crate and its name.
pub fn all(repository: &Repository) -> impl Iterator<Item = (&str, &str, &str)> {
    repository.paths().filter_map(|path| {
        let (crate_name, part) = place(path)?;
        let name = path.strip_suffix(".edit")?.rsplit('/').next()?;
        Some((path, crate_name, name)).filter(|_| part == "must-fail")
    })
}

pub fn unclaimed(repository: &Repository) -> Vec<Finding> {
    let claims = repository.text(CLAIMS).unwrap_or_default();
    let named: Vec<&str> = claims.lines().flat_map(quoted).map(|name| name.text).collect();
    let edits =
        all(repository).filter(|(_, crate_name, name)| !named.contains(&format!("{crate_name}/{name}").as_str()));
    edits.map(|(path, ..)| finding(path, 1, format!("{CLAIMS} does not name it"))).collect()
}

pub fn misplaced(repository: &Repository) -> Vec<Finding> {
    all(repository).flat_map(|(path, crate_name, _)| misplaced_in(repository, path, crate_name)).collect()
}

/// Carries an edit out as `rt` does: a `file:` line holds for the pairs of `old:` and `new:` after it, and each pair is
/// looked for in what the ones before it left.
fn misplaced_in(repository: &Repository, path: &str, crate_name: &str) -> Vec<Finding> {
    let mut findings = Vec::new();
    let mut texts: BTreeMap<&str, String> = BTreeMap::new();
    let (mut file, mut old, mut pairs) = ("", None, 0);
    let original = |file: &str| repository.text(&format!("crates/{crate_name}/{file}")).unwrap_or_default();
    let lines = repository.text(path).unwrap_or_default().lines();
    for (number, line) in (1..).zip(lines) {
        let mut wrong = |what: &str| findings.push(finding(path, number, what.to_string()));
        if let Some(name) = line.strip_prefix("file: ") {
            file = name.trim();
            if !["src/", "specs/", "proofs/"].iter().any(|part| file.starts_with(part)) {
                wrong(&format!("{file} is not below src/, specs/ or proofs/"));
            } else if repository.text(&format!("crates/{crate_name}/{file}")).is_none() {
                wrong(&format!("there is no file {file}"));
            }
        } else if let Some(sought) = line.strip_prefix("old: ") {
            old = Some(sought);
            let times = texts.get(file).map_or(original(file), String::as_str).matches(sought).count();
            if times != 1 {
                wrong(&format!("its old text stands {times} times in {file}"));
            }
        } else if let Some(new) = line.strip_prefix("new:") {
            match old.take() {
                Some(old) => {
                    let text = texts.entry(file).or_insert_with(|| original(file).to_string());
                    *text = text.replace(old, new.strip_prefix(' ').unwrap_or(new));
                    pairs += 1;
                }
                None => wrong("no old text stands before this"),
            }
        }
    }
    if pairs == 0 {
        findings.push(finding(path, 1, "it has no pair of old and new text".to_string()));
    } else if findings.is_empty() && texts.iter().all(|(file, text)| text == original(file)) {
        findings.push(finding(path, 1, "it changes nothing".to_string()));
    }
    findings
}

#[cfg(test)]
mod tests {
    use super::super::found;
    use super::*;

    #[test]
    fn an_edit_that_no_claim_names_is_found() {
        let files = [
            ("crates/a/must-fail/one.edit", ""),
            ("crates/a/must-fail/two.edit", ""),
            (CLAIMS, "Edits `a/one`, a/two"),
        ];
        assert_eq!(found(unclaimed, &files), ["crates/a/must-fail/two.edit:1: docs/CLAIMS.md does not name it"]);
    }

    #[test]
    fn an_edit_that_cannot_be_applied_is_found() {
        let check = |edit: &str| {
            let files = [("crates/a/src/lib.rt", "let x = 1;\nlet y = 1;\n"), ("crates/a/specs/A.antt", "a = 1\n")];
            found(misplaced, &[("crates/a/must-fail/one.edit", edit), files[0], files[1]])
        };
        assert!(check("Why.\nfile: src/lib.rt\nold: x = 1\nnew: x = 2\nold: y = 1\nnew: y = 2\n").is_empty());
        let in_two_files = "file: src/lib.rt\nold: x = 1\nnew: x = 2\nfile: specs/A.antt\nold: a = 1\nnew: a = 2\n\
                            file: src/lib.rt\nold: x = 2\nnew:\n";
        assert!(check(in_two_files).is_empty());
        let in_edit = |line: usize, what: &str| format!("crates/a/must-fail/one.edit:{line}: {what}");
        let wrong = [
            ("file: src/lib.rt\nold: = 1\nnew: = 2\n", in_edit(2, "its old text stands 2 times in src/lib.rt")),
            (
                "file: src/lib.rt\nold: x = 1\nnew: x = 2\nold: x = 1\nnew: x = 3\n",
                in_edit(4, "its old text stands 0 times in src/lib.rt"),
            ),
            ("file: src/main.rt\n", in_edit(1, "it has no pair of old and new text")),
            ("file: src/lib.rt\nold: x = 1\n", in_edit(1, "it has no pair of old and new text")),
            ("file: src/lib.rt\nold: x = 1\nnew: x = 2\nnew: x = 3\n", in_edit(4, "no old text stands before this")),
            ("file: src/lib.rt\nold: x = 1\nnew: x = 1\n", in_edit(1, "it changes nothing")),
            ("file: data/a\n", in_edit(1, "data/a is not below src/, specs/ or proofs/")),
            ("file: src/main.rt\n", in_edit(1, "there is no file src/main.rt")),
        ];
        for (edit, what) in wrong {
            assert!(check(edit).contains(&what), "{edit}: {:?}", check(edit));
        }
    }
}
