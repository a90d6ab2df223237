//! What a compiler and a prover let pass, and a reader should not meet: imports and lemmas that nobody uses, long lines,
//! must-fail edits and claims that lead nowhere, names in pages that have gone from the code, files stored twice.
//! `tests/tidy.rs` fails on any of it.

mod claims;
mod copies;
mod edits;
mod imports;
mod lemmas;
mod lengths;
mod mentions;
mod outline;
mod source;
mod strays;

use std::collections::BTreeMap;
use std::fmt;
use std::fs;
use std::path::Path;

/// Something to mend, and where.
#[derive(Clone, Debug, PartialEq, Eq, PartialOrd, Ord)]
pub struct Finding {
    path: String,
    line: usize,
    what: String,
}

impl fmt::Display for Finding {
    fn fmt(&self, f: &mut fmt::Formatter) -> fmt::Result {
        write!(f, "{}:{}: {}", self.path, self.line, self.what)
    }
}

fn finding(path: &str, line: usize, what: String) -> Finding {
    Finding { path: path.to_string(), line, what }
}

/// All files, by their path from the repository's root.
pub struct Repository(BTreeMap<String, Vec<u8>>);

impl Repository {
    /// The files below a folder, but for what git and builds keep there.
    pub fn load(root: &Path) -> Repository {
        let mut files = BTreeMap::new();
        let mut folders = vec![root.to_path_buf()];
        while let Some(folder) = folders.pop() {
            for entry in fs::read_dir(&folder).unwrap_or_else(|e| panic!("{}: {e}", folder.display())) {
                let path = entry.expect("the folder can be listed").path();
                if path.is_file() {
                    let name = path.strip_prefix(root).expect("it is below the root").to_string_lossy().into_owned();
                    files.insert(name, fs::read(&path).unwrap_or_else(|e| panic!("{}: {e}", path.display())));
                } else if path.is_dir() && !is_made(root, &path) {
                    folders.push(path);
                }
            }
        }
        Repository(files)
    }

    fn paths(&self) -> impl Iterator<Item = &str> {
        self.0.keys().map(String::as_str)
    }

    fn contents(&self) -> impl Iterator<Item = (&str, &[u8])> {
        self.0.iter().map(|(path, content)| (path.as_str(), content.as_slice()))
    }

    /// A file's text; none where there is no such file, or it is no text.
    fn text(&self, path: &str) -> Option<&str> {
        self.0.get(path).and_then(|content| std::str::from_utf8(content).ok())
    }

    /// The texts whose paths pass a test.
    fn texts(&self, test: impl Fn(&str) -> bool) -> impl Iterator<Item = (&str, &str)> {
        self.paths().filter(move |path| test(path)).filter_map(|path| Some((path, self.text(path)?)))
    }

    /// The crates that crates.txt lists: the first word of each line, as `cabi` of `cabi staticlib: heap`.
    fn crates(&self) -> Vec<&str> {
        let lines = self.text("crates.txt").unwrap_or_default().lines();
        let listed = lines.map(|line| line.split('#').next().unwrap_or(line));
        listed.filter_map(|line| line.split(':').next()?.split_whitespace().next()).collect()
    }

    /// Everything that is to be mended, in the order of paths and lines.
    pub fn findings(&self) -> Vec<Finding> {
        let checks = [
            imports::unused,
            lemmas::uncited,
            lengths::long_lines,
            lengths::long_definition_files,
            edits::unclaimed,
            edits::misplaced,
            claims::unknown_names,
            mentions::gone,
            copies::stored_twice,
            strays::in_no_crate,
        ];
        let mut findings: Vec<Finding> = checks.iter().flat_map(|check| check(self)).collect();
        findings.sort();
        findings
    }
}

/// Whether git or a build keeps a folder: `rt` makes `out/` in a crate's folder, cargo and `./run` make `target/`.
fn is_made(root: &Path, folder: &Path) -> bool {
    let is_out = folder.parent().and_then(Path::parent) == Some(&root.join("crates")) && folder.ends_with("out");
    is_out || folder.ends_with(".git") || folder.ends_with("target")
}

/// A path's crate and the part of the crate it lies in: src, specs, proofs or must-fail.
fn place(path: &str) -> Option<(&str, &str)> {
    let mut names = path.strip_prefix("crates/")?.split('/');
    Some((names.next()?, names.next()?)).filter(|_| names.next().is_some())
}

/// Whether a file has definitions, code or proofs of a crate.
fn is_source(path: &str) -> bool {
    matches!(place(path), Some((_, "src" | "specs" | "proofs"))) && (path.ends_with(".rt") || path.ends_with(".antt"))
}

#[test]
fn what_is_made_is_passed_over() {
    let made = |path: &str| is_made(Path::new("/a"), &Path::new("/a").join(path));
    assert!([".git", "target", "tests/target", "crates/b/out"].into_iter().all(made));
    assert!(!["out", "crates/out", "crates/b/src/out", "crates/b/data", "crates/b"].into_iter().any(made));
}

/// A repository of a few files, and what a check finds in it.
#[cfg(test)]
fn found(check: fn(&Repository) -> Vec<Finding>, files: &[(&str, &str)]) -> Vec<String> {
    let listed = |&(path, text): &(&str, &str)| (path.to_string(), text.as_bytes().to_vec());
    let repository = Repository(files.iter().map(listed).collect());
    check(&repository).iter().map(Finding::to_string).collect()
}
