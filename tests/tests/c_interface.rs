//! The header from C and C++ with all warnings on, its numbers and types against the Rust declarations, puts into
//! registers, and the C example.

use std::path::Path;
use std::process::Command;
use tulivombe_tests::plain::runner::{self, MOST_STEPS, SCREENFUL};
use tulivombe_tests::plain::{replay, takes, Refusal};
use tulivombe_tests::vectors::root;

const WARNINGS: [&str; 4] = ["-Wall", "-Wextra", "-Wpedantic", "-Werror"];

/// Runs a command and gives what it prints; it must succeed.
fn run(command: &mut Command) -> String {
    let output = command.output().unwrap_or_else(|e| panic!("{command:?}: {e}"));
    let errors = String::from_utf8_lossy(&output.stderr);
    assert!(output.status.success(), "{command:?}: {}\n{errors}", output.status);
    String::from_utf8(output.stdout).expect("the output is text")
}

fn compiler(name: &str) -> Command {
    let mut command = Command::new(name);
    command.args(WARNINGS).arg("-I").arg(root().join("include"));
    command
}

/// Compiles a program as C or C++, links the libraries, and gives what it prints.
fn program(source: &str, language: &str, libraries: &[&str]) -> String {
    let (name, standard) = if language == "c" { ("cc", "-std=c99") } else { ("c++", "-std=c++11") };
    let source = root().join(source);
    let stem = source.file_stem().expect("a source has a name").to_string_lossy();
    let binary = Path::new(env!("CARGO_TARGET_TMPDIR")).join(format!("{stem}-{language}"));
    let mut command = compiler(name);
    command.args([standard, "-O2", "-x", language]).arg(&source).args(["-x", "none"]);
    run(command.args(libraries).arg("-o").arg(&binary));
    run(&mut Command::new(&binary))
}

#[test]
fn header_compiles_as_c_and_cpp() {
    let header = root().join("include/tulivombe.h");
    for (name, language, standards) in [("cc", "c", ["c99", "c11", "c17"]), ("c++", "c++", ["c++11", "c++17", "c++20"])]
    {
        for standard in standards {
            let mut command = compiler(name);
            command.arg(format!("-std={standard}")).args(["-fsyntax-only", "-x", language]).arg(&header);
            run(&mut command);
        }
    }
}

#[test]
fn numbers_are_alike() {
    let expected = [
        ("SCREENFUL", SCREENFUL),
        ("MOST_STEPS", MOST_STEPS),
        ("LONGEST_FILE", takes::LONGEST),
        ("ANSWER_LENGTH", runner::ANSWER),
        ("CALL_LENGTH", replay::CALL),
        ("FREE_SLOT", Refusal::FreeSlot.number() as usize),
        ("TOO_MANY_RECORDS", Refusal::TooManyRecords.number() as usize),
        ("OUTSIDE", Refusal::Outside.number() as usize),
        ("LOCKED", Refusal::Locked.number() as usize),
        ("NOT_BACK", Refusal::NotBack.number() as usize),
        ("NOT_IN_GRID", Refusal::NotInGrid.number() as usize),
    ];
    let lines: String = expected.iter().map(|(name, number)| format!("{name} {number}\n")).collect();
    assert_eq!(program("tests/c/numbers.c", "c", &[]), lines);
    assert_eq!(program("tests/c/numbers.c", "c++", &[]), lines);
}

#[cfg(feature = "library")]
mod library {
    use super::*;
    use std::mem::{offset_of, size_of};
    use tulivombe_tests::library::{put_register, write_flat, FlatPlace, FlatRecord, Registers};
    use tulivombe_tests::subject::{Answer, Part, Ran};

    /// A program linked with the library.
    fn linked(source: &str, language: &str) -> String {
        program(source, language, &[env!("TULIVOMBE_LIBRARY")])
    }

    #[test]
    fn types_are_alike() {
        let expected = [
            ("answer", size_of::<Answer>()),
            ("answer.value", offset_of!(Answer, value)),
            ("part", size_of::<Part>()),
            ("part.offset", offset_of!(Part, offset)),
            ("part.length", offset_of!(Part, length)),
            ("registers", size_of::<Registers>()),
            ("ran", size_of::<Ran>()),
            ("ran.registers", offset_of!(Ran, registers)),
            ("ran.count", offset_of!(Ran, count)),
            ("ran.stopped", offset_of!(Ran, stopped)),
            ("record", size_of::<FlatRecord>()),
            ("record.d", offset_of!(FlatRecord, d)),
            ("record.a", offset_of!(FlatRecord, a)),
            ("record.b", offset_of!(FlatRecord, b)),
            ("record.byte", offset_of!(FlatRecord, byte)),
            ("record.index", offset_of!(FlatRecord, index)),
            ("record.word", offset_of!(FlatRecord, word)),
            ("record.rows", offset_of!(FlatRecord, rows)),
            ("record.columns", offset_of!(FlatRecord, columns)),
            ("record.row", offset_of!(FlatRecord, row)),
            ("record.column", offset_of!(FlatRecord, column)),
            ("place", size_of::<FlatPlace>()),
            ("place.record", offset_of!(FlatPlace, record)),
            ("place.next", offset_of!(FlatPlace, next)),
        ];
        let lines: String = expected.iter().map(|(name, number)| format!("tulivombe_{name} {number}\n")).collect();
        assert_eq!(linked("tests/c/layout.c", "c"), lines);
        assert_eq!(linked("tests/c/layout.c", "c++"), lines);
    }

    #[test]
    fn example_prints_what_is_stored() {
        let expected = std::fs::read_to_string(root().join("examples/device.stdout")).expect("the stored output");
        assert_eq!(linked("examples/device.c", "c"), expected);
        assert_eq!(linked("examples/device.c", "c++"), expected);
    }

    /// The number and the registers after a put.
    fn put_by_hand(registers: [u32; 16], d: u8, v: u32) -> (u32, [u32; 16]) {
        if d > 15 {
            return (7, registers);
        }
        let mut after = registers;
        after[usize::from(d)] = v;
        (0, after)
    }

    /// The registers that are lent are the first 16 of 256 numbers, so no byte leads out of what is compared.
    #[test]
    fn put_changes_its_register_alone() {
        let before: [u32; 16] = std::array::from_fn(|k| 0x0101_0101 * (k as u32 + 1));
        for d in 0..=255 {
            for v in [0, 1, 0x0102_0304, 0x8000_0000, u32::MAX] {
                let mut lent = [Registers { values: before }; 16];
                let number = put_register(&mut lent[0], d, v);
                assert_eq!((number, lent[0].values), put_by_hand(before, d, v), "{v} in register {d}");
                assert_eq!(lent[1..], [Registers { values: before }; 15], "{v} in register {d}");
            }
        }
    }

    #[test]
    fn puts_from_c_are_alike() {
        let before = std::array::from_fn(|k| k as u32 + 1);
        let line = |d: u8| {
            let (number, registers) = put_by_hand(before, d, 4_000_000_000 - u32::from(d));
            registers.iter().fold(format!("{number}:"), |line, value| format!("{line} {value}")) + "\n"
        };
        let lines: String = (0..=255).map(line).collect();
        assert_eq!(linked("tests/c/registers.c", "c"), lines);
        assert_eq!(linked("tests/c/registers.c", "c++"), lines);
    }

    /// What an operation lacks is ignored, and index, word and a grid's four bytes are fields of their own.
    #[test]
    fn writer_takes_the_fields_of_the_operation() {
        let registers = FlatRecord { d: 3, a: 99, b: 99, byte: 99, ..FlatRecord::default() };
        let numbers = FlatRecord { index: 0x0102, word: 0x0304_0506, ..registers };
        let full = FlatRecord { rows: 21, columns: 22, row: 23, column: 24, ..numbers };
        let written = [
            (FlatRecord { operation: 11, ..full }, &[4, 11, 3, 1, 2][..]),
            (FlatRecord { operation: 12, ..full }, &[6, 12, 3, 3, 4, 5, 6]),
            (FlatRecord { operation: 13, a: 4, ..full }, &[7, 13, 3, 4, 21, 22, 23, 24]),
        ];
        for (record, bytes) in written {
            let mut out = [0xA5; 9];
            let value = bytes.len() as u32;
            assert_eq!(write_flat(&mut out, record), Answer { number: 0, value });
            assert_eq!((&out[..bytes.len()], &out[bytes.len()..]), (bytes, &[0xA5; 9][bytes.len()..]));
        }
    }

    #[test]
    fn unknown_operations_are_refused_by_the_writer() {
        for operation in [0, 14, 128, 255] {
            let mut out = [0xA5; 16];
            let record = FlatRecord { operation, d: 99, ..FlatRecord::default() };
            assert_eq!(write_flat(&mut out, record), Answer { number: 5, value: 0 });
            assert_eq!(write_flat(&mut [], record), Answer { number: 5, value: 0 });
            assert_eq!(out, [0xA5; 16]);
        }
    }
}

/// The header promises any x86-64. A library does not look for its processor, so an instruction of a newer one would
/// stop the device.
#[cfg(feature = "library")]
#[test]
fn library_runs_on_any_x86_64() {
    const NEWER: [&str; 12] = [
        "popcnt", "pshufb", "palignr", "ptest", "pextrb", "pextrd", "pextrq", "pinsrb", "pinsrd", "pinsrq", "pblendw", "crc32",
    ];
    let code = run(Command::new("objdump").args(["-d", "--no-show-raw-insn", env!("TULIVOMBE_LIBRARY")]));
    let instructions: Vec<&str> = code.lines().filter_map(|line| line.split_once(":\t")?.1.split_whitespace().next()).collect();
    assert!(instructions.contains(&"ret"), "objdump shows no code");
    let newer: Vec<&&str> = instructions.iter().filter(|name| NEWER.contains(name) || name.starts_with('v')).collect();
    assert!(newer.is_empty(), "instructions of x86-64-v2 and up: {newer:?}");
}

/// The manual promises no writable static data: not even data that is written once, where it is loaded.
#[cfg(feature = "library")]
#[test]
fn library_has_no_data_of_its_own() {
    let headers = run(Command::new("objdump").args(["-h", "-w", env!("TULIVOMBE_LIBRARY")]));
    let sections: Vec<&str> = headers.lines().filter(|line| line.contains("ALLOC")).collect();
    assert!(sections.iter().any(|line| line.contains("CODE")), "objdump shows no code");
    let is_empty = |line: &str| line.split_whitespace().nth(2).is_some_and(|size| size.bytes().all(|digit| digit == b'0'));
    let writable: Vec<&&str> = sections.iter().filter(|line| !line.contains("READONLY") && !is_empty(line)).collect();
    assert!(writable.is_empty(), "{writable:#?}");
}

/// What was judged is not judged again where it is carried out: no test is left there that would have to end in a trap.
#[cfg(feature = "library")]
#[test]
fn runs_and_replays_have_no_trap() {
    let code = run(Command::new("objdump").args(["-d", "--no-show-raw-insn", env!("TULIVOMBE_LIBRARY")]));
    let functions: Vec<&str> = code.split("\n\n").filter(|function| function.contains(">:\n")).collect();
    for name in ["<runner::run_by>:", "<tulivombe_replay>:"] {
        let named = functions.iter().find(|function| function.contains(name));
        let function = named.unwrap_or_else(|| panic!("objdump shows no {name}"));
        assert!(!function.contains("ud2"), "{name} has a trap");
    }
}
