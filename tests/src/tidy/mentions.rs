//! Names in the pages for readers that have gone from the code: what stands alone in backquotes there, and is a name, is a
//! word of some file that is no page and not in docs/, or the name of a file or folder. What CLAIMS names is held more
//! closely (`claims`).

use super::claims::quoted;
use super::{finding, Finding, Repository};
use std::collections::HashSet;

const PAGES: [&str; 5] = ["README.md", "docs/DECISIONS.md", "docs/MANUAL.md", "docs/PERFORMANCE.md", "tests/README.md"];

/// A name of Rattle, antt, Rust or C.
fn is_name(text: &str) -> bool {
    text.starts_with(|c: char| c.is_alphabetic()) && text.chars().all(is_of_a_name)
}

fn is_of_a_name(c: char) -> bool {
    c.is_alphanumeric() || "_-'".contains(c)
}

pub fn gone(repository: &Repository) -> Vec<Finding> {
    let files = repository.texts(|path| !path.ends_with(".md") && !path.starts_with("docs/"));
    let mut known: HashSet<&str> = files.flat_map(|(_, text)| text.split(|c| !is_of_a_name(c))).collect();
    known.extend(repository.paths().flat_map(|path| path.split(['/', '.'])));
    let mut findings = Vec::new();
    for (page, text) in repository.texts(|path| PAGES.contains(&path)) {
        for (number, line) in (1..).zip(text.lines()) {
            let names = quoted(line).into_iter().map(|span| span.text).filter(|text| is_name(text));
            let unknown = names.filter(|name| !known.contains(name));
            findings.extend(unknown.map(|name| finding(page, number, format!("nothing is called {name}"))));
        }
    }
    findings
}

#[cfg(test)]
mod tests {
    use super::super::found;
    use super::*;

    #[test]
    fn a_name_that_has_gone_is_found() {
        let files = [
            ("README.md", "`both-plain`, `Heaps` and `lib` in `crates/a`; `f x`, `2^m`\nand `both-gone`\n"),
            ("docs/OTHER.md", "`both-gone`"),
            ("docs/later.patch", "both-gone"),
            ("crates/a/specs/Heaps.antt", "both-plain : A\n"),
            ("crates/a/src/lib.rt", ""),
        ];
        assert_eq!(found(gone, &files), ["README.md:2: nothing is called both-gone"]);
    }
}
