//! `./run`, the program `takerun` under it, the texts of the examples and the manual's takes. What they must print comes
//! from document 01, the stored vectors and both references.

use std::path::Path;
use std::process::{Command, Output};
use tulivombe_tests::literal::Literal;
use tulivombe_tests::plain::takes;
use tulivombe_tests::record::Record;
use tulivombe_tests::subject::{Plain, Subject};
use tulivombe_tests::vectors::{bytes, root, takerun, text};

/// `./run` with arguments, started in another folder than the repository.
fn run(arguments: &[&Path]) -> Output {
    let mut command = Command::new(root().join("run"));
    command.args(arguments).current_dir(std::env::temp_dir());
    command.output().unwrap_or_else(|e| panic!("{command:?}: {e}"))
}

/// A refusal of `./run` itself: status 2, one line of complaint, and nothing that looks like a take's answers.
fn complains(arguments: &[&Path], complaint: &str) {
    let output = run(arguments);
    assert_eq!(output.status.code(), Some(2), "{arguments:?}");
    assert_eq!(String::from_utf8_lossy(&output.stderr), format!("run: {complaint}\n"));
    assert_eq!(output.stdout, b"", "{arguments:?}");
}

#[test]
fn run_needs_a_file_that_it_can_read() {
    for name in ["no/such.take", "tests"] {
        let path = root().join(name);
        complains(&[&path], &format!("there is no readable file {}", path.display()));
    }
    let demonstration = root().join("examples/demo.take");
    complains(&[&demonstration, &demonstration], "usage: ./run [FILE]");
}

/// A record of an example's text: its bytes, its words and the lines that it prints.
struct Explained<'a> {
    bytes: Vec<u8>,
    words: Vec<&'a str>,
    printed: &'a str,
}

/// The text's lines that start with a record's length byte.
fn explained(text: &str) -> Vec<Explained<'_>> {
    text.lines().filter(|line| line.starts_with('0')).map(record).collect()
}

/// A line's record by its columns, which two blanks or more part.
fn record(line: &str) -> Explained<'_> {
    let columns: Vec<&str> = line.split("  ").map(str::trim).filter(|column| !column.is_empty()).collect();
    let [digits, words, printed, ..] = columns[..] else { panic!("too few columns: {line}") };
    Explained { bytes: from_hexadecimal(digits), words: words.split(' ').collect(), printed }
}

fn from_hexadecimal(text: &str) -> Vec<u8> {
    let digits: Vec<char> = text.chars().filter(|c| *c != ' ').collect();
    let byte = |pair: &[char]| u8::from_str_radix(&pair.iter().collect::<String>(), 16).expect("two digits");
    digits.chunks(2).map(byte).collect()
}

/// A record in words: its operation, registers and numbers.
fn spelled(record: Record) -> String {
    match record {
        Record::Get { d, n } => format!("get r{d} {n}"),
        Record::Give { a } => format!("give r{a}"),
        Record::Step { d, a, i } => format!("step r{d} r{a} {}", i as i32),
        Record::Read { d, a, w } => format!("read r{d} r{a} {w}"),
        Record::Write { a, w, v } => format!("write r{a} {w} {v}"),
        Record::Left { d, a } => format!("left r{d} r{a}"),
        Record::Copy { d, a, b, n } => format!("copy r{d} r{a} r{b} {n}"),
        Record::Fill { d, a, v, n } => format!("fill r{d} r{a} {v} {n}"),
        Record::Lock { a } => format!("lock r{a}"),
        Record::Unlock { a } => format!("unlock r{a}"),
        Record::Again { d, k } => format!("again r{d} {k}"),
        Record::Set { d, n } => format!("set r{d} {n}"),
        Record::Grid { d, a, rows, columns, row, column } => format!("grid r{d} r{a} {rows} {columns} {row} {column}"),
    }
}

/// What the text has between backquotes.
fn quoted(text: &str) -> Vec<&str> {
    text.split('`').skip(1).step_by(2).collect()
}

/// Holds an example's text to its take: the bytes and words of each record, and the lines that it prints, one for each
/// time that it is carried out.
fn text_says_what_the_take_does(name: &str) {
    let example = |extension: &str| root().join("examples").join(name).with_extension(extension);
    let (file, text) = (bytes(&example("take")), text(&example("txt")));
    let records = explained(&text);
    let written: Vec<u8> = records.iter().flat_map(|record| record.bytes.clone()).collect();
    assert_eq!(file[2..], written);
    assert!(text.contains(&format!("The file starts with {:02X} {:02X}:", file[0], file[1])));
    for Explained { bytes, words, .. } in &records {
        let (record, _) = takes::read(bytes, 0).expect("the text has whole records");
        // numbers may be left out at the end
        let said: Vec<&str> = words.iter().copied().filter(|word| *word != "..").collect();
        let spelled = spelled(record);
        assert!(spelled.split(' ').collect::<Vec<_>>().starts_with(&said), "{spelled}: {words:?}");
    }
    let [first, last] = quoted(&text)[..] else { panic!("the first and the last line are quoted") };
    let printed = records.iter().flat_map(|record| record.printed.split(", "));
    prints_in_some_order(&file, printed.chain([first, last]).collect());
}

/// Both references print these lines, which stand in the order of the records in the file.
fn prints_in_some_order(file: &[u8], mut lines: Vec<&str>) {
    lines.sort_by_key(|line| match line.split(' ').next() {
        Some("heap") => 0,
        Some(index) => index.parse().map_or(usize::MAX, |index: usize| index + 1),
        None => usize::MAX,
    });
    assert_eq!(takerun::<Plain>(file).lines().collect::<Vec<_>>(), lines);
    assert_eq!(takerun::<Literal>(file).lines().collect::<Vec<_>>(), lines);
}

#[test]
fn texts_of_the_examples() {
    ["demo", "roll", "pattern"].into_iter().for_each(text_says_what_the_take_does);
}

/// The manual's tables of takes: in a row the bytes of a record and the lines that it prints.
#[test]
fn takes_of_the_manual() {
    let manual = text(&root().join("docs/MANUAL.md"));
    let tables: Vec<&str> =
        manual.split("| bytes (hexadecimal) | record | printed |\n|---|---|---|\n").skip(1).collect();
    assert!(!tables.is_empty(), "the manual has the worked example");
    for table in tables {
        let rows = table.lines().map_while(|line| line.strip_prefix('|'));
        let columns: Vec<Vec<&str>> = rows.map(|row| row.split('|').collect()).collect();
        let file: Vec<u8> = columns.iter().flat_map(|row| quoted(row[0])).flat_map(from_hexadecimal).collect();
        prints_in_some_order(&file, columns.iter().flat_map(|row| quoted(row[2])).collect());
    }
}

/// The manual's drawing of a pattern: a line with bars for each track, an empty cell for 0.
fn drawn(manual: &str) -> Vec<u8> {
    let drawing = manual.split("```\n").nth(1).expect("the manual draws a pattern");
    let tracks = drawing.lines().filter(|line| line.contains('|'));
    let cells = tracks.flat_map(|track| track.split('|').skip(1).take(16).map(str::trim));
    cells.map(|cell| if cell.is_empty() { 0 } else { cell.parse().expect("a byte") }).collect()
}

#[test]
fn pattern_of_the_manual() {
    let (mut arena, mut table, mut answers) = ([0; 64], [0; 4], [0; 5 * 24]);
    let ran = Plain::run(&bytes(&root().join("examples/pattern.take")), &mut arena, &mut table, &mut answers, 24);
    assert_eq!((ran.number, ran.count), (0, 24));
    assert_eq!(arena[..], drawn(&text(&root().join("docs/MANUAL.md"))));
}

/// The proved program, which `./run` has built where it was not.
#[cfg(feature = "library")]
mod proved {
    use super::*;
    use std::fs::File;
    use std::path::PathBuf;
    use tulivombe_tests::vectors::stored;

    /// Document 01, "A take": the worked input and what it prints.
    const WORKED: &str = "01 06 06 01 00 00000014 06 01 01 00000010 07 03 02 00 00000020 04 04 03 02 01 \
                          07 03 02 02 FFFFFFFF 06 01 04 00000020 02 02 00";
    const PRINTED: &str = "heap 64\n0 0 65536\n1 0 65568\n2 0 2147549216\n3 13 0\n4 0 65567\n5 21 0\n6 0 0\nend 7\n";

    fn prints(output: &Output, expected: &str, what: &str) {
        assert!(output.status.success(), "{what}: {}", String::from_utf8_lossy(&output.stderr));
        assert_eq!(String::from_utf8_lossy(&output.stdout), expected, "{what}");
    }

    fn kept(name: &str, content: &[u8]) -> PathBuf {
        let path = Path::new(env!("CARGO_TARGET_TMPDIR")).join(name);
        std::fs::write(&path, content).unwrap_or_else(|e| panic!("{}: {e}", path.display()));
        path
    }

    /// One test, so that no two proofs of `takerun` run at once.
    #[test]
    fn run_and_takerun_print_what_the_paper_and_the_vectors_say() {
        let demonstration = bytes(&root().join("examples/demo.take"));
        prints(&run(&[]), &takerun::<Literal>(&demonstration), "./run");
        for name in ["roll", "pattern"] {
            let example = root().join("examples").join(name).with_extension("take");
            prints(&run(&[&example]), &takerun::<Literal>(&bytes(&example)), name);
        }
        prints(&run(&[&kept("worked.take", &from_hexadecimal(WORKED))]), PRINTED, "the worked take");
        prints(&run(&[&kept("empty.take", b"")]), "refused 1\n", "an empty file");
        for (take, printed) in stored().iter().flat_map(|text| text.takes()) {
            let input = File::open(&take).unwrap_or_else(|e| panic!("{}: {e}", take.display()));
            let mut program = Command::new(root().join("crates/takerun/out/takerun"));
            let output = program.stdin(input).output().unwrap_or_else(|e| panic!("{program:?}: {e}"));
            prints(&output, &printed, &take.display().to_string());
        }
    }
}
