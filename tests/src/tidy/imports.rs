//! Imports that the rest of the file never uses.

use super::source::{is_used, Source};
use super::{finding, is_source, Finding, Repository};

/// Traits of std that a file names for their methods and macros alone, and those of them that this repository calls.
const TRAITS: [(&str, &[&str]); 2] = [
    ("Read", &["read", "read_exact", "read_to_end"]),
    ("Write", &["flush", "write", "write_all", "write_fmt", "write!", "writeln!"]),
];

pub fn unused(repository: &Repository) -> Vec<Finding> {
    repository.texts(is_source).flat_map(|(path, text)| unused_in(path, text)).collect()
}

fn unused_in(path: &str, text: &str) -> Vec<Finding> {
    let source = Source::new(path, text);
    let words = source.words();
    let names = source.imports.iter().filter(|import| !import.handed_on).flat_map(|import| &import.names);
    let unused =
        names.filter(|name| !is_used(name.here, |word| words.contains(word)) && !is_called(&source, name.here));
    unused.map(|name| finding(path, name.line, format!("{} is imported and not used", name.here))).collect()
}

/// Whether this is a trait, one of whose methods or macros the file calls.
fn is_called(source: &Source, name: &str) -> bool {
    let calls = TRAITS.iter().filter(|(known, _)| *known == name).flat_map(|(_, calls)| *calls);
    let mut written = calls.map(|call| if call.ends_with('!') { format!("{call}(") } else { format!(".{call}(") });
    written.any(|call| source.lines.iter().any(|line| line.code.contains(&call)))
}

#[cfg(test)]
mod tests {
    use super::*;

    fn names(path: &str, text: &str) -> Vec<String> {
        super::super::found(unused, &[(path, text)])
    }

    #[test]
    fn an_unused_import_of_antt_is_found() {
        let text = "use Rattle.std.proofs.Common.{add, add-zero, zero as nil, ◌≡◌, ◌+◌, [], a'}\n\
                    use Rattle.heap.proofs.get.Goals as goal\n\
                    -- add-zero stands in a comment\nf : add ≡ nil\nf = goal.returns [] a' -- +\n";
        let expected =
            ["add-zero", "◌+◌"].map(|name| format!("crates/a/proofs/A.antt:1: {name} is imported and not used"));
        assert_eq!(names("crates/a/proofs/A.antt", text), expected);
        let list = "use Rattle.std.specs.Prelude.{\n    add,\n    mul}\n";
        assert!(names("crates/a/proofs/A.antt", &format!("{list}f = add mul\n")).is_empty());
        let expected = ["crates/a/specs/A.antt:3: mul is imported and not used"];
        assert_eq!(names("crates/a/specs/A.antt", &format!("{list}f = add\n")), expected);
    }

    #[test]
    fn an_unused_import_of_rattle_is_found() {
        let text = "pub use reader::read;\nuse heap::Answer;\nuse heap::operations;\nuse common::wide;\n\
                    ghost use Rattle.std.specs.Prelude.{◌≡◌, ◌+◌, length, drop};\n\
                    fn f(a: &[u8]) -> Answer\n    ensures { length a.now ≡ 1 }\n{ operations::GET } // wide, drop\n";
        let expected = [(4, "wide"), (5, "◌+◌"), (5, "drop")];
        let expected =
            expected.map(|(line, name)| format!("crates/a/src/lib.rt:{line}: {name} is imported and not used"));
        assert_eq!(names("crates/a/src/lib.rt", text), expected);
    }

    #[test]
    fn a_trait_of_which_nothing_is_called_is_found() {
        let text = |body| format!("use std::io::{{self, Read, Write}};\nfn f() -> io::Result<()> {{ {body} }}\n");
        assert!(names("crates/a/src/lib.rt", &text("from.read_to_end(v)?; out.flush()")).is_empty());
        assert!(names("crates/a/src/lib.rt", &text("from.read(v)?; write!(out, \"{n}\")")).is_empty());
        let expected = ["crates/a/src/lib.rt:1: Read is imported and not used"];
        assert_eq!(names("crates/a/src/lib.rt", &text("read(v)?; out.write_all(v)")), expected);
    }
}
