//! Lines and definition files that are too long to read. Lengths are counted in characters, not bytes.

use super::{finding, is_source, place, Finding, Repository};

const LONGEST_LINE: usize = 160;
const LONGEST_DEFINITION_FILE: usize = 120;

pub fn long_lines(repository: &Repository) -> Vec<Finding> {
    let mut findings = Vec::new();
    for (path, text) in repository.texts(is_source) {
        for (number, line) in (1..).zip(text.lines()) {
            let length = line.chars().count();
            if length > LONGEST_LINE {
                findings.push(finding(path, number, format!("{length} characters, more than {LONGEST_LINE}")));
            }
        }
    }
    findings
}

pub fn long_definition_files(repository: &Repository) -> Vec<Finding> {
    let definitions = repository.texts(|path| is_source(path) && matches!(place(path), Some((_, "specs"))));
    let counted = definitions.map(|(path, text)| (path, text.lines().count()));
    let long = counted.filter(|(_, lines)| *lines > LONGEST_DEFINITION_FILE);
    long.map(|(path, lines)| {
        finding(path, lines, format!("{lines} lines of definitions, more than {LONGEST_DEFINITION_FILE}"))
    })
    .collect()
}

#[cfg(test)]
mod tests {
    use super::super::found;
    use super::*;

    #[test]
    fn a_line_of_161_characters_is_found() {
        let files = |length| {
            [("crates/a/proofs/A.antt", format!("\n{}\n", "≡".repeat(length))), ("docs/A.md", "a".repeat(161))]
        };
        let check = |length| {
            let files = files(length);
            found(long_lines, &[(files[0].0, &files[0].1), (files[1].0, &files[1].1)])
        };
        assert!(check(160).is_empty());
        assert_eq!(check(161), ["crates/a/proofs/A.antt:2: 161 characters, more than 160"]);
    }

    #[test]
    fn a_definition_file_of_121_lines_is_found() {
        let lines = |count| "a\n".repeat(count);
        assert!(found(long_definition_files, &[("crates/a/specs/A.antt", &lines(120))]).is_empty());
        assert!(found(long_definition_files, &[("crates/a/proofs/A.antt", &lines(121))]).is_empty());
        let expected = ["crates/a/specs/A.antt:121: 121 lines of definitions, more than 120"];
        assert_eq!(found(long_definition_files, &[("crates/a/specs/A.antt", &lines(121))]), expected);
    }
}
