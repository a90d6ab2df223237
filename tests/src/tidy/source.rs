//! Rattle and antt as far as this check reads them: code without comments, words, imports.

use std::collections::HashSet;

/// A line of code with its number; comments are gone.
pub struct Line<'a> {
    pub number: usize,
    pub code: &'a str,
}

/// A name that an import brings in: what its module calls it, and what the file does.
pub struct Name<'a> {
    pub line: usize,
    /// The module that has it, from the import's path on: "" for the path itself, `b` for c of `use a::{b::c}`.
    pub below: &'a str,
    pub there: &'a str,
    pub here: &'a str,
}

/// An import: a module's path and the names that are taken from it, or the one name under which it comes whole.
pub struct Import<'a> {
    pub path: &'a str,
    pub names: Vec<Name<'a>>,
    pub whole: bool,
    /// `pub use`: the names are handed on, and so are the file's own.
    pub handed_on: bool,
}

/// A file of Rattle or antt.
pub struct Source<'a> {
    pub path: &'a str,
    pub imports: Vec<Import<'a>>,
    /// The lines that import nothing.
    pub lines: Vec<Line<'a>>,
}

impl<'a> Source<'a> {
    pub fn new(path: &'a str, text: &'a str) -> Source<'a> {
        let comment = if path.ends_with(".rt") { "//" } else { "--" };
        let mut source = Source { path, imports: Vec::new(), lines: Vec::new() };
        let mut open: Option<Reading> = None;
        for (number, line) in (1..).zip(text.lines()) {
            let line = Line { number, code: code(line, comment) };
            let (mut reading, list) = match open.take() {
                Some(reading) => (reading, line.code),
                None => match imported(line.code) {
                    Some(started) => started,
                    None => {
                        source.lines.push(line);
                        continue;
                    }
                },
            };
            reading.names_of(list, number);
            // a list of names that is not closed goes on in the next line
            if reading.lists.is_empty() {
                source.imports.push(reading.import);
            } else {
                open = Some(reading);
            }
        }
        source
    }

    /// All words outside the imports.
    pub fn words(&self) -> HashSet<&'a str> {
        self.lines.iter().flat_map(|line| words(self.path, line.code)).collect()
    }
}

/// A line without the comment that ends it.
fn code<'a>(line: &'a str, comment: &str) -> &'a str {
    let starts = |at: usize| {
        let before = line[..at].chars().next_back();
        comment == "//" || before.is_none_or(|c| c.is_whitespace() || is_between_names(c))
    };
    let end = line.match_indices(comment).map(|(at, _)| at).find(|&at| starts(at));
    &line[..end.unwrap_or(line.len())]
}

/// An import that is being read, with what stands before each list of names that is still open.
struct Reading<'a> {
    import: Import<'a>,
    lists: Vec<&'a str>,
}

/// The start of an import, if the line has one: its path, and the text from which its names are to be read.
fn imported(code: &str) -> Option<(Reading<'_>, &str)> {
    let code = code.trim();
    let code = ["ghost ", "unfoldable "].iter().fold(code, |code, mark| code.strip_prefix(mark).unwrap_or(code));
    let handed_on = code.starts_with("pub ");
    let list = code.strip_prefix("pub ").unwrap_or(code).strip_prefix("use ")?;
    let path = list.split(['{', ' ', ';']).next().unwrap_or(list).trim_end_matches(['.', ':']);
    let import = Import { path, names: Vec::new(), whole: !list.contains('{'), handed_on };
    Some((Reading { import, lists: Vec::new() }, list))
}

impl<'a> Reading<'a> {
    /// Reads the names of one line.
    fn names_of(&mut self, list: &'a str, line: usize) {
        let mut start = 0;
        for (at, sign) in list.char_indices().filter(|(_, sign)| "{},;".contains(*sign)) {
            let item = &list[start..at];
            start = at + sign.len_utf8();
            match sign {
                '{' => self.lists.push(item.trim().trim_end_matches(['.', ':'])),
                _ => self.name(item, line),
            }
            if sign == '}' {
                self.lists.pop();
            }
        }
        self.name(&list[start..], line);
    }

    fn name(&mut self, item: &'a str, line: usize) {
        let (item, renamed) = match item.trim().split_once(" as ") {
            Some((item, here)) => (item.trim(), Some(here.trim())),
            None => (item.trim(), None),
        };
        if item.is_empty() {
            return;
        }
        // the list's own head, but for the import's, and what stands before the name itself
        let list = self.lists.get(1..).and_then(|lists| lists.last()).copied().unwrap_or_default();
        let (before, there) = item.rsplit_once(['.', ':']).map_or(("", item), |(path, name)| (path, name));
        let before = if self.import.whole { "" } else { before.trim_end_matches(':') };
        let below = if before.is_empty() { list } else { before };
        // `use a::{self}` brings in a, and `use a::*` names that cannot be seen here
        let own = |path: &'a str| path.rsplit(['.', ':']).next().unwrap_or(path);
        let there = match there {
            "self" if list.is_empty() => own(self.import.path),
            "self" => own(list),
            "*" => return,
            _ => there,
        };
        self.import.names.push(Name { line, below, there, here: renamed.unwrap_or(there) });
    }
}

/// What no name of antt contains, beside blanks.
fn is_between_names(c: char) -> bool {
    "(){},;.@\"«»".contains(c)
}

/// The words of a line. A hyphen, a prime or an operator sign is part of an antt name; Rattle's names have none of them,
/// and its files hold both languages. A section, as `(◌+ 1)`, has its operator's sign.
pub fn words<'a>(path: &str, code: &'a str) -> impl Iterator<Item = &'a str> {
    let antt = code.split(|c: char| c.is_whitespace() || is_between_names(c));
    let antt = antt.flat_map(|word| [word, if word.contains(PLACE) { word.trim_matches(PLACE) } else { "" }]);
    let rattle = if path.ends_with(".rt") { code } else { "" };
    let rattle = rattle.split(|c: char| !c.is_alphanumeric() && c != '_');
    antt.chain(rattle).filter(|word| !word.is_empty())
}

/// Where an operator's operands stand in its name.
const PLACE: char = '◌';

/// Whether a name is among the words: itself or, where it stands round its operands as `◌≡◌` does, all its parts.
pub fn is_used(name: &str, is_word: impl Fn(&str) -> bool) -> bool {
    is_word(name) || name.contains(PLACE) && name.split(PLACE).filter(|part| !part.is_empty()).all(is_word)
}

#[cfg(test)]
mod tests {
    use super::*;

    /// The names that a line imports, each with its module and under what name.
    fn names(path: &str, text: &str) -> Vec<String> {
        let source = Source::new(path, text);
        let names = source.imports.iter().flat_map(|import| import.names.iter().map(move |name| (import.path, name)));
        names.map(|(path, name)| format!("{path} {} {} {}", name.below, name.there, name.here)).collect()
    }

    #[test]
    fn imports_are_read() {
        assert_eq!(
            names("a.rt", "use io::{self, file::{Read, Write as W}, b::c};\nuse a::B;\nuse a::*;"),
            ["io  io io", "io file Read Read", "io file Write W", "io b c c", "a::B  B B",]
        );
        assert_eq!(names("a.rt", "ghost use R.a.{\n    b as c, // x\n    ◌+◌,\n};"), ["R.a  b c", "R.a  ◌+◌ ◌+◌"]);
        assert_eq!(
            names("a.antt", "use R.a.{b, N.d}\nuse R.f.Goals as goal\npub use R.b.{e} -- f"),
            ["R.a  b b", "R.a N d d", "R.f.Goals  Goals goal", "R.b  e e",]
        );
    }

    #[test]
    fn comments_are_gone() {
        let codes = |path, line| Source::new(path, line).lines[0].code.to_string();
        assert_eq!(codes("a.antt", "f = a--b (--c"), "f = a--b (");
        assert_eq!(codes("a.antt", "f = a -- b"), "f = a ");
        assert_eq!(codes("a.rt", "let x = 1 - -1; // y"), "let x = 1 - -1; ");
    }

    #[test]
    fn operators_are_used_by_their_parts() {
        let used = |name: &str, code: &str| is_used(name, |word| words("a.antt", code).any(|known| known == word));
        for code in ["a ≡ b", "ap ◌≡◌ x", "(◌≡ 1)", "(1 ≡◌)"] {
            assert!(used("◌≡◌", code), "{code}");
        }
        assert!(used("◌when◌else◌", "a when b else c") && !used("◌when◌else◌", "a when b"));
        assert!(used("¬◌", "¬ a") && !used("¬◌", "a") && !used("_+_", "a + b"));
    }
}
