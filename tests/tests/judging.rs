//! The refusals of each call, in judging order: the lists in the header and in the manual are those of the ledger. Also
//! the manual's examples of a missing home, of a marked pointer, of a lock and of a grid.

use std::collections::BTreeMap;
use tulivombe_tests::call::Call;
use tulivombe_tests::ledger::{can_refuse, can_refuse_records, Ledger};
use tulivombe_tests::subject::Answer;
use tulivombe_tests::vectors::{root, text};

/// Lists of numbers by the call's name.
type Lists = BTreeMap<&'static str, Vec<u32>>;

/// The call of that name.
fn known(name: &str) -> Option<&'static str> {
    can_refuse().into_keys().find(|known| *known == name)
}

/// The numbers at the start of a text, up to the first word that is none.
fn numbers(text: &str) -> Vec<u32> {
    let words = text.split([' ', '\n', '*', ',']).filter(|word| !word.is_empty());
    words.map_while(|word| word.trim_end_matches('.').parse().ok()).collect()
}

/// What the header says of a call: a comment, then the declaration.
fn described(part: &str) -> Option<(&'static str, Vec<u32>)> {
    let (comment, declaration) = part.split_once("*/")?;
    let (name, _) = declaration.split("tulivombe_").find_map(|part| part.split_once('('))?;
    let (_, refused) = comment.split_once("Refused:")?;
    Some((known(name)?, numbers(refused)))
}

#[test]
fn the_headers_lists() {
    let header = text(&root().join("include/tulivombe.h"));
    assert_eq!(header.split("/* ").filter_map(described).collect::<Lists>(), can_refuse());
}

fn manual() -> String {
    text(&root().join("docs/MANUAL.md"))
}

/// The rows of the manual's tables whose first column has one of these names as word `at`, each with its last column.
fn rows(at: usize, named: &Lists) -> Lists {
    let row = |line: &str| {
        let columns: Vec<&str> = line.strip_prefix('|')?.strip_suffix('|')?.split('|').map(str::trim).collect();
        let (name, _) = named.get_key_value(columns.first()?.split(' ').nth(at)?)?;
        Some((*name, numbers(columns[columns.len() - 1])))
    };
    manual().lines().filter_map(row).collect()
}

#[test]
fn the_manuals_lists_of_calls() {
    assert_eq!(rows(0, &can_refuse()), can_refuse());
}

#[test]
fn the_manuals_lists_of_records() {
    assert_eq!(rows(1, &can_refuse_records()), can_refuse_records());
}

/// The numbers of the two kinds of missing home.
const MISSING: [u32; 2] = [22, 27];

/// A call of an example, in words and numbers.
fn call(question: &str) -> Call {
    let words: Vec<&str> = question.split_whitespace().collect();
    let numbers: Vec<i64> = words[1..].iter().map(|word| word.parse().expect("a number")).collect();
    let word = |k: usize| numbers[k] as u32;
    let byte = |k: usize| numbers[k] as u8;
    match words[0] {
        "give" => Call::Give { p: word(0) },
        "step" => Call::Step { p: word(0), i: word(1) },
        "write" => Call::Write { p: word(0), w: byte(1), v: word(2) },
        "left" => Call::Left { p: word(0) },
        "copy" => Call::Copy { p: word(0), q: word(1), n: word(2) },
        "fill" => Call::Fill { p: word(0), v: byte(1), n: word(2) },
        "lock" => Call::Lock { p: word(0) },
        "unlock" => Call::Unlock { p: word(0) },
        "grid" => Call::Grid { p: word(0), rows: byte(1), columns: byte(2), row: byte(3), column: byte(4) },
        other => panic!("another call: {other}"),
    }
}

/// The manual's examples under a heading: calls, each with what it says of the answer. Other lines that stand in as far
/// are of a drawing, and start with no word.
fn examples(heading: &str) -> Vec<(Call, Answer)> {
    let manual = manual();
    let (_, after) = manual.split_once(&format!("\n## {heading}\n")).expect("the manual has the heading");
    let indented = |line: &&str| line.strip_prefix("    ").is_some_and(|rest| rest.starts_with(char::is_alphabetic));
    let lines = after.lines().take_while(|line| !line.starts_with("## ")).filter(indented);
    let example = |line: &str| match (line.split_once(" gives "), line.split_once(" is refused ")) {
        (Some((question, value)), None) => (call(question), Answer { number: 0, value: numbers(value)[0] }),
        (None, Some((question, number))) => (call(question), Answer { number: numbers(number)[0], value: 0 }),
        _ => panic!("no example: {line}"),
    };
    lines.map(example).collect()
}

/// The examples of 22 and 27 speak of an arena of 64 bytes that is all free.
#[test]
fn the_manuals_examples_of_missing() {
    let mut met = BTreeMap::new();
    for (call, answer) in examples("Pointers").into_iter().filter(|(_, answer)| MISSING.contains(&answer.number)) {
        assert_eq!(Ledger::new(6).feed(call), answer, "{call:?}");
        *met.entry((call.name(), answer.number)).or_default() += 1;
    }
    let steps = [(("step", 22), 1), (("step", 27), 2)];
    let others = [(("give", 27), 1), (("left", 22), 3), (("left", 27), 2)];
    assert_eq!(met, steps.into_iter().chain(others).collect());
}

/// The other examples of pointers speak of a block of 32 bytes.
#[test]
fn the_manuals_examples_of_marks() {
    let mut ledger = Ledger::new(6);
    assert_eq!(ledger.feed(Call::Get { n: 32 }), Answer { number: 0, value: 65_536 });
    let mut met = Vec::new();
    for (call, answer) in examples("Pointers").into_iter().filter(|(_, answer)| !MISSING.contains(&answer.number)) {
        assert_eq!(ledger.feed(call), answer, "{call:?}");
        met.push((call.name(), answer.number));
    }
    assert_eq!(met, [("step", 0), ("step", 0), ("step", 24), ("left", 13)]);
}

/// Those of locks are made one after the other on two blocks.
#[test]
fn the_manuals_examples_of_locks() {
    let mut ledger = Ledger::new(6);
    for (n, value) in [(32, 65_536), (16, 65_568)] {
        assert_eq!(ledger.feed(Call::Get { n }), Answer { number: 0, value });
    }
    let examples = examples("Locked blocks");
    for &(call, answer) in &examples {
        assert_eq!(ledger.feed(call), answer, "{call:?}");
    }
    let refused = examples.iter().filter(|(_, answer)| answer.number == 28).map(|(call, _)| call.name());
    assert_eq!(refused.collect::<Vec<_>>(), ["write", "fill", "copy", "give"]);
}

/// Those of grids speak of a block of 64 bytes.
#[test]
fn the_manuals_examples_of_grids() {
    let mut ledger = Ledger::new(7);
    assert_eq!(ledger.feed(Call::Get { n: 64 }), Answer { number: 0, value: 65_536 });
    let mut met = BTreeMap::<_, u32>::new();
    for (call, answer) in examples("Patterns as grids") {
        assert_eq!(ledger.feed(call), answer, "{call:?}");
        *met.entry((call.name(), answer.number)).or_default() += 1;
    }
    assert_eq!(met, [(("grid", 0), 4), (("grid", 25), 2), (("grid", 30), 2)].into());
}
