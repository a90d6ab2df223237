//! What a file of antt declares: definitions and lemmas, at the margin or in modules, records' fields, data types' cases.

use super::source::Source;

/// How much further in the parts of a module stand.
const STEP: usize = 2;

/// What may stand before a signature, a record or a data type.
const MARKS: [&str; 5] = ["pattern", "unfoldable", "abbrev", "axiom", "pub"];

/// What a file says of a name.
#[derive(Clone, Copy, PartialEq, Eq)]
pub enum Kind {
    Definition,
    /// A record's field or a data type's case.
    Member,
}

pub struct Declaration<'a> {
    pub name: &'a str,
    pub kind: Kind,
    pub line: usize,
}

/// A line that starts a signature, a clause, a module, a record or a data type: the name that it speaks of, none for a
/// module, and the names that it declares.
pub struct Head<'a> {
    pub line: usize,
    pub name: &'a str,
    declares: Vec<&'a str>,
    kind: Kind,
}

impl<'a> Head<'a> {
    pub fn declarations(self) -> impl Iterator<Item = Declaration<'a>> {
        self.declares.into_iter().map(move |name| Declaration { name, kind: self.kind, line: self.line })
    }
}

/// The names that a file of antt declares.
pub fn declarations<'a>(source: &Source<'a>) -> Vec<Declaration<'a>> {
    outline(source).into_iter().flat_map(Head::declarations).collect()
}

/// The lines that start something: those that stand at the margin, or as far in as the parts of what they stand in.
pub fn outline<'a>(source: &Source<'a>) -> Vec<Head<'a>> {
    let mut heads = Vec::new();
    // how far in the parts of each open module, record or data type stand, and what they are
    let mut levels = vec![(0, Kind::Definition)];
    for line in &source.lines {
        let text = line.code.trim_start();
        let column = line.code.len() - text.len();
        levels.retain(|(level, _)| *level <= column || text.is_empty());
        let &(level, kind) = levels.last().expect("the margin is always open");
        let mut words = text.split_whitespace().skip_while(|word| MARKS.contains(word)).peekable();
        let Some(word) = words.next().filter(|word| column == level && !["unfolding", "where"].contains(word)) else {
            continue;
        };
        // `record {` builds one, and declares none
        let next = words.next().filter(|next| !next.starts_with('{'));
        let (name, declares, parts) = match (word, next) {
            ("module", _) | ("mutual", None) => ("", Vec::new(), Some(Kind::Definition)),
            ("record" | "data", Some(name)) => (name, vec![name], Some(Kind::Member)),
            ("ruleset", Some(name)) => (name, vec![name], None),
            _ => (word, declared_names(text), None),
        };
        heads.push(Head { line: line.number, name, declares, kind });
        levels.extend(parts.map(|kind| (column + STEP, kind)));
    }
    heads
}

/// The names before a line's colon; none where an equation comes first. Parameters in brackets are no names.
fn declared_names(text: &str) -> Vec<&str> {
    let mut names = Vec::new();
    let mut open = 0;
    for word in text.split_whitespace() {
        match word {
            ":" if open == 0 => return names,
            "=" if open == 0 => return Vec::new(),
            _ if MARKS.contains(&word) => {}
            _ if open == 0 && !word.starts_with(['(', '{']) => names.push(word),
            _ => {}
        }
        open += word.matches(['(', '{']).count();
        open -= word.matches([')', '}']).count().min(open);
    }
    Vec::new()
}

#[cfg(test)]
mod tests {
    use super::*;

    #[test]
    fn declarations_are_read() {
        let text = "\
use Rattle.a.specs.B.{b}
infix 80 ◌has◌

abbrev pub size {ℓ} : (A : Type ℓ) → ℕ
size a = record { here = b }
unfoldable pub ◌has◌ : ℕ → ℕ → Bool
pub ruleset laws = (one, two)
pub record Part (n : ℕ) : Type 0 where
  pub start length : ℕ
data Kind : Type 0 where
  one two : Kind
mutual
  pub even : ℕ → Bool
module _ (c : Start) where
  inner : ℕ
  inner =
    let x : ℕ = 1 in x
  module _ {k : ℕ} where
    deep : ℕ
    deep =
    record {
      field = 1
    }
";
        let source = Source::new("a.antt", text);
        let names: Vec<_> = declarations(&source).iter().map(|it| (it.name, it.kind == Kind::Member)).collect();
        let definitions = |names: &'static [&str]| names.iter().map(|name| (*name, false));
        let members = |names: &'static [&str]| names.iter().map(|name| (*name, true));
        let expected = definitions(&["size", "◌has◌", "laws", "Part"]).chain(members(&["start", "length"]));
        let expected = expected.chain(definitions(&["Kind"])).chain(members(&["one", "two"]));
        assert_eq!(names, expected.chain(definitions(&["even", "inner", "deep"])).collect::<Vec<_>>());
    }
}
