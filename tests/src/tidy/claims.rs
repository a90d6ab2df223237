//! Names in docs/CLAIMS.md that do not exist. Checked is, of what stands in backquotes:
//! - `crate/name`, a must-fail edit, and every other path: it exists, from the root or from crates/; `.antt` and `.edit`
//!   are left out there;
//! - `crate::function` and `crate::module::function`: the crate's code has an item of that name in that file;
//! - names before " in `path`" or " (`path`", as many as commas and "and" link: each is declared in that file, or below
//!   that folder;
//! - every other name that stands alone: some crate declares it, or it is a crate, a file's name, or a name of the header.
//!
//! Of what has blanks, as `stored (Get n)`, the first word counts. `CRATE` stands for any crate.

use super::outline::declarations;
use super::source::Source;
use super::{finding, is_source, Finding, Repository};
use std::collections::{HashMap, HashSet};

pub const CLAIMS: &str = "docs/CLAIMS.md";

/// Words of Rattle that a claim may speak of.
const KEYWORDS: [&str; 2] = ["requires", "ensures"];

/// What stands in backquotes, and the text between it and the backquote before.
pub struct Quoted<'a> {
    pub text: &'a str,
    before: &'a str,
}

impl<'a> Quoted<'a> {
    pub fn first_word(&self) -> &'a str {
        self.text.split(' ').next().unwrap_or(self.text)
    }

    fn is_path(&self) -> bool {
        self.text.contains('/')
    }

    /// Whether this is one more name of a list.
    fn goes_on(&self) -> bool {
        [", ", " and ", ", and "].contains(&self.before)
    }
}

pub fn quoted(line: &str) -> Vec<Quoted<'_>> {
    let parts: Vec<&str> = line.split('`').collect();
    parts.chunks_exact(2).map(|pair| Quoted { before: pair[0], text: pair[1] }).collect()
}

pub fn unknown_names(repository: &Repository) -> Vec<Finding> {
    let names = Names::new(repository);
    let mut findings = Vec::new();
    for (number, line) in (1..).zip(repository.text(CLAIMS).unwrap_or_default().lines()) {
        let spans = quoted(line);
        for (index, span) in spans.iter().enumerate() {
            let wrong = if span.is_path() {
                names.path_fault(span.text)
            } else if let Some((crate_name, item)) = span.text.split_once("::") {
                names.item_fault(crate_name, item)
            } else {
                names.name_fault(span, place_of(&spans[index..]))
            };
            findings.extend(wrong.map(|what| finding(CLAIMS, number, what)));
        }
    }
    findings
}

/// The path that a list of names, which starts with the first of these, is said to stand in.
fn place_of<'a>(spans: &[Quoted<'a>]) -> Option<&'a str> {
    let last = 1 + spans[1..].iter().take_while(|span| span.goes_on() && !span.is_path()).count();
    let place = spans.get(last).filter(|span| span.is_path() && [" in ", " ("].contains(&span.before))?;
    Some(place.text)
}

/// What the files declare.
struct Names<'a> {
    repository: &'a Repository,
    crates: Vec<&'a str>,
    declared: HashMap<&'a str, HashSet<&'a str>>,
}

impl<'a> Names<'a> {
    fn new(repository: &'a Repository) -> Names<'a> {
        let sources = repository.texts(is_source).map(|(path, text)| (path, declared(&Source::new(path, text))));
        Names { repository, crates: repository.crates(), declared: sources.collect() }
    }

    /// The files that a path names: one, or all below it.
    fn files(&self, path: &str) -> Vec<&'a str> {
        let crate_path = format!("crates/{path}");
        let edit = path.split_once('/').map(|(crate_name, name)| format!("crates/{crate_name}/must-fail/{name}.edit"));
        let is_named = |file: &&str| {
            let starts = |path: &str| {
                file.strip_prefix(path).is_some_and(|rest| rest.is_empty() || rest == ".antt" || rest.starts_with('/'))
            };
            starts(path) || starts(&crate_path) || edit.as_deref() == Some(*file)
        };
        self.repository.paths().filter(is_named).collect()
    }

    fn path_fault(&self, path: &str) -> Option<String> {
        let any_crate = path.split('/').any(|name| name == "CRATE");
        (!any_crate && self.files(path).is_empty()).then(|| format!("there is no {path}"))
    }

    fn item_fault(&self, crate_name: &str, item: &str) -> Option<String> {
        let (file, name) = item.rsplit_once("::").unwrap_or(("lib", item));
        let path = format!("crates/{crate_name}/src/{}.rt", file.replace("::", "/"));
        let known = self.declared.get(path.as_str()).is_some_and(|names| names.contains(name));
        (!known).then(|| format!("there is no {crate_name}::{item}"))
    }

    fn name_fault(&self, span: &Quoted, place: Option<&str>) -> Option<String> {
        let name = span.first_word();
        let declared = |file: &str| self.declared.get(file).is_some_and(|names| names.contains(name));
        match place {
            Some(place) if self.path_fault(place).is_some() => None,
            Some(place) => {
                let known = self.files(place).into_iter().any(declared);
                (!known).then(|| format!("{place} declares no {name}"))
            }
            None => {
                let known = self.crates.contains(&name) || self.declared.keys().any(|file| declared(file));
                (!known && !KEYWORDS.contains(&name) && !self.is_file_or_c(name))
                    .then(|| format!("no crate declares {name}"))
            }
        }
    }

    fn is_file_or_c(&self, name: &str) -> bool {
        let header = self.repository.texts(|path| path.starts_with("include/"));
        let word = |c: char| !c.is_alphanumeric() && c != '_';
        let in_c = header.flat_map(|(_, text)| text.split(word)).any(|known| known == name);
        in_c || self.repository.paths().any(|path| path.rsplit('/').next() == Some(name))
    }
}

/// The names that a file declares: of antt by their signatures, of Rattle by their items.
fn declared<'a>(source: &Source<'a>) -> HashSet<&'a str> {
    if source.path.ends_with(".antt") {
        return declarations(source).iter().map(|declaration| declaration.name).collect();
    }
    let handed_on = source.imports.iter().filter(|import| import.handed_on);
    let mut names: HashSet<&str> = handed_on.flat_map(|import| &import.names).map(|name| name.here).collect();
    for line in &source.lines {
        let mut words = line.code.split(|c: char| !c.is_alphanumeric() && c != '_');
        while let Some(word) = words.next() {
            if ["fn", "const", "struct", "enum", "trait", "type", "static", "mod"].contains(&word) {
                names.extend(words.next());
            }
        }
    }
    names
}

#[cfg(test)]
mod tests {
    use super::super::found;
    use super::*;

    fn check(claim: &str) -> Vec<String> {
        let files = [
            ("crates.txt", "a:\nb: a\n"),
            ("crates/a/specs/Heaps.antt", "pub heap : A\nheap = 1\nrecord Part : Type 0 where\n  start : ℕ\n"),
            ("crates/a/src/lib.rt", "pub use inner::given;\npub fn read(x: u8) -> u8 {}\n"),
            ("crates/a/src/inner.rt", "const MOST: usize = 1;\nfn next() {}\n"),
            ("crates/a/must-fail/wrong.edit", ""),
            ("include/a.h", "int a_read(void);\n"),
            (CLAIMS, claim),
        ];
        let start = format!("{CLAIMS}:1: ");
        found(unknown_names, &files).iter().map(|line| line.replace(&start, "")).collect()
    }

    #[test]
    fn names_that_exist_pass() {
        let claims = [
            "`heap`, `Part` and `start` in `a/specs/Heaps`; `heap` (`a/specs`). Edit `a/wrong`",
            "`a::read`, `a::given`, `a::inner::next`, `MOST` in `a/src/inner.rt`, `a/src`, `crates/CRATE/specs`, `crates.txt`",
            "`heap (f x)` has no `requires`; crate `b`, `a_read`, `docs/CLAIMS.md`",
        ];
        for claim in claims {
            assert_eq!(check(claim), [""; 0], "{claim}");
        }
    }

    #[test]
    fn names_that_do_not_exist_are_found() {
        let wrong = [
            ("`heaps`, `Part` in `a/specs/Heaps`", "a/specs/Heaps declares no heaps"),
            ("`Part` and `ends (x)` in `a/specs/Heaps`", "a/specs/Heaps declares no ends"),
            ("`next` (`a/src/lib.rt`)", "a/src/lib.rt declares no next"),
            ("`heap` in `a/specs/Heap`", "there is no a/specs/Heap"),
            ("Edit `a/right`", "there is no a/right"),
            ("`a::write`", "there is no a::write"),
            ("`a::other::next`", "there is no a::other::next"),
            ("`c::read`", "there is no c::read"),
            ("the record `Parts`", "no crate declares Parts"),
            ("`docs/PLAN.md`", "there is no docs/PLAN.md"),
        ];
        for (claim, what) in wrong {
            assert_eq!(check(claim), [what], "{claim}");
        }
    }
}
