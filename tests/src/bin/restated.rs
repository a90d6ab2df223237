//! Holds the stored vectors to those of an earlier revision: where a line differs, nothing may have changed in it but
//! numbers of refusals, and only as allowed. Files and lines at a file's end may have been added. Prints each file that
//! changed, with the counts of its changed and added lines, and the sums by change.
//!
//!     restated REVISION OLD:NEW ..        for instance: restated HEAD~1 22:27

use std::collections::BTreeMap;
use std::path::Path;
use std::process::Command;
use tulivombe_tests::vectors::{root, stored, text, Form};

/// A number of a refusal, and what it became.
type Change = (u32, u32);

/// The stored inputs and outputs, as git names them.
const STORED: [&str; 4] = ["tests/vectors/*/*", "crates/*/stdin", "crates/*/stdout", "crates/*/data"];

fn git(arguments: &[&str]) -> String {
    let output = Command::new("git").current_dir(root()).args(arguments).output().expect("git can be run");
    assert!(output.status.success(), "git {arguments:?}: {}", String::from_utf8_lossy(&output.stderr));
    String::from_utf8(output.stdout).expect("the stored texts are UTF-8")
}

/// The number that is word `at` of both texts, all other words being equal.
fn word(old: &str, new: &str, at: usize) -> Option<Change> {
    let (old, new): (Vec<_>, Vec<_>) = (old.split(' ').collect(), new.split(' ').collect());
    let others = |words: &[&str]| [&words[..at], &words[at + 1..]].concat().join(" ");
    let same = old.len() == new.len() && at < old.len() && others(&old) == others(&new);
    same.then_some((old[at].parse().ok()?, new[at].parse().ok()?))
}

/// The bytes that two hexadecimal digits each stand for.
fn from_hex(digits: &str) -> Option<Vec<u8>> {
    let pairs = digits.as_bytes().chunks(2);
    pairs.map(|pair| u8::from_str_radix(std::str::from_utf8(pair).ok()?, 16).ok()).collect()
}

/// What changed in a run: its answers, five bytes a record, stand before arena and table at the end; all else is equal.
fn answers(old: &str, new: &str) -> Option<Vec<Change>> {
    let (old, new): (Vec<_>, Vec<_>) = (old.split(' ').collect(), new.split(' ').collect());
    let at = old.len().checked_sub(3)?;
    if old.len() != new.len() || old[..at] != new[..at] || old[at + 1..] != new[at + 1..] {
        return None;
    }
    let (before, after) = (from_hex(old[at])?, from_hex(new[at])?);
    let carried_out = 5 * old[1].parse::<usize>().ok()?;
    if before.len() != after.len() || before[carried_out..] != after[carried_out..] {
        return None;
    }
    let records = before[..carried_out].chunks(5).zip(after.chunks(5)).filter(|(old, new)| old != new);
    records.map(|(old, new)| (old[1..] == new[1..]).then_some((old[0].into(), new[0].into()))).collect()
}

/// The changes from a line to another, or none where more than numbers of refusals changed.
fn changes(form: &Form, old: &str, new: &str) -> Option<Vec<Change>> {
    let answered = || match (old.split_once(" = ")?, new.split_once(" = ")?) {
        ((asked, old), (now, new)) if asked == now => Some((old, new)),
        _ => None,
    };
    match form {
        Form::Printed { .. } | Form::Played { .. } => word(old, new, 1).map(|change| vec![change]),
        Form::Answers { .. } => word(old, new, 0).map(|change| vec![change]),
        Form::Calls => answered().and_then(|(old, new)| word(old, new, 0)).map(|change| vec![change]),
        Form::Runs => answered().and_then(|(old, new)| answers(old, new)),
    }
}

fn main() {
    let mut arguments = std::env::args().skip(1);
    let revision = arguments.next().expect("a revision");
    let parsed = |change: String| {
        let (old, new) = change.split_once(':').expect("OLD:NEW");
        (old.parse().expect("a number"), new.parse().expect("a number"))
    };
    let allowed: Vec<Change> = arguments.map(parsed).collect();
    let names = [&["diff", "--name-only", "--diff-filter=MDRT", &revision, "--"][..], &STORED].concat();
    let mut changed: Vec<String> = git(&names).lines().map(String::from).collect();
    let mut sums: BTreeMap<Change, usize> = BTreeMap::new();
    for file in stored() {
        let name = file.path.strip_prefix(root()).expect("it is stored in the repository").display().to_string();
        let Some(place) = changed.iter().position(|other| *other == name) else { continue };
        changed.remove(place);
        let old = git(&["show", &format!("{revision}:{name}")]);
        let lines = compare(&file.form, &file.path, &old, &allowed, &mut sums);
        println!("{name}: {lines} lines, {} added", text(&file.path).lines().count() - old.lines().count());
    }
    assert!(changed.is_empty(), "these are no answers, or gone: {changed:?}");
    println!("{sums:?}");
}

/// Counts the lines that changed, and adds up their changes.
fn compare(form: &Form, path: &Path, old: &str, allowed: &[Change], sums: &mut BTreeMap<Change, usize>) -> usize {
    let new = text(path);
    assert!(old.lines().count() <= new.lines().count(), "{}: lines are gone", path.display());
    let differ = old.lines().zip(new.lines()).enumerate().filter(|(_, (old, new))| old != new);
    let mut lines = 0;
    for (index, (old, new)) in differ {
        let found = changes(form, old, new).filter(|found| found.iter().all(|change| allowed.contains(change)));
        let found = found.unwrap_or_else(|| panic!("{}:{}:\n{old}\n{new}", path.display(), index + 1));
        found.into_iter().for_each(|change| *sums.entry(change).or_default() += 1);
        lines += 1;
    }
    lines
}
