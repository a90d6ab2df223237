//! Definitions and lemmas that nobody cites. Cited is
//! - what another definition of its file mentions,
//! - what a file imports from its module and uses, or names by its whole path, in code by a path as `crate::proofs::Rows::listed`,
//! - a record's field or a data type's case that any other definition mentions, since these come without an import,
//! - what docs/CLAIMS.md names, and what the check itself asks of a function's proof: the answers to goals, the
//!   invariants and measures, each under its goal's name, and `f_spec` of a proof by hand.
//!
//! Files of examples are passed over: what is computed there is said for its own sake.

use super::claims::{quoted, CLAIMS};
use super::outline::{outline, Declaration, Head, Kind};
use super::source::{is_used, words, Source};
use super::{finding, is_source, Finding, Repository};
use std::collections::{HashMap, HashSet};

/// How the names of files of examples end.
const EXAMPLES: [&str; 3] = ["Examples", "Refused", "Vectors"];

/// A file with its declarations, and for each of its words the declarations that mention it.
struct Declared<'a> {
    source: Source<'a>,
    declarations: Vec<Declaration<'a>>,
    mentions: HashMap<&'a str, HashSet<&'a str>>,
}

pub fn uncited(repository: &Repository) -> Vec<Finding> {
    let files: Vec<Declared> = repository.texts(is_source).map(|(path, text)| declared(path, text)).collect();
    let cited: HashSet<(String, &str)> = files.iter().flat_map(Declared::cites).collect();
    let claims = repository.text(CLAIMS).unwrap_or_default();
    let claimed: HashSet<&str> = claims.lines().flat_map(quoted).map(|name| name.first_word()).collect();
    let mut findings = Vec::new();
    for file in files.iter().filter(|file| !is_example(file.source.path)) {
        let module = module_of(file.source.path);
        for declaration @ Declaration { name, kind, line } in &file.declarations {
            let elsewhere = match kind {
                Kind::Definition => cited.contains(&(module.clone(), name)),
                Kind::Member => files.iter().any(|other| other.mentions(name)),
            };
            if !elsewhere && !claimed.contains(name) && !file.mentions(name) && !file.is_asked_for(declaration) {
                findings.push(finding(file.source.path, *line, format!("nobody cites {name}")));
            }
        }
    }
    findings
}

fn is_example(path: &str) -> bool {
    let name = path.rsplit('/').next().unwrap_or(path).trim_end_matches(".antt");
    EXAMPLES.iter().any(|end| name.ends_with(end))
}

/// The module that a file is, as `Rattle.heap.specs.Heaps`, or `Rattle.heap.specs` of a file `Lib.antt`.
fn module_of(path: &str) -> String {
    let inside = path.strip_prefix("crates/").unwrap_or(path).trim_end_matches(".antt");
    format!("Rattle.{}", inside.trim_end_matches("/Lib").replace('/', "."))
}

impl<'a> Declared<'a> {
    /// Whether a declaration of this file mentions a name, other than the one that declares it here.
    fn mentions(&self, name: &str) -> bool {
        is_used(name, |word| self.mentions.get(word).is_some_and(|by| by.iter().any(|other| *other != name)))
    }

    /// The names of modules that this file uses: it imports them, alone or with their whole module, or writes their paths.
    fn cites(&self) -> HashSet<(String, &'a str)> {
        let mut cited = HashSet::new();
        for import in &self.source.imports {
            let used = import.names.iter().filter(|name| is_used(name.here, |word| self.mentions.contains_key(word)));
            for name in used {
                if import.whole {
                    cited.extend(self.mentions.keys().map(|word| (import.path.to_string(), *word)));
                } else {
                    let below = if name.below.is_empty() { "" } else { "." };
                    cited.insert((format!("{}{below}{}", import.path, name.below), name.there));
                }
            }
        }
        for line in &self.source.lines {
            let words = line.code.split(|c: char| c.is_whitespace() || "(){},;".contains(c));
            for path in words.filter(|word| word.starts_with("Rattle.")) {
                let names = path.match_indices('.').map(|(at, _)| (&path[..at], &path[at + 1..]));
                cited.extend(names.map(|(module, rest)| (module.to_string(), rest.split('.').next().unwrap_or(rest))));
            }
        }
        if self.source.path.ends_with(".rt") {
            cited.extend(self.source.lines.iter().flat_map(|line| in_attributes(self.source.path, line.code)));
        }
        cited
    }

    /// Whether the check asks for a declaration: its type is the goal of its name, or it is a function's proof by hand.
    fn is_asked_for(&self, declaration: &Declaration) -> bool {
        let name = declaration.name;
        let line = self.source.lines.iter().find(|line| line.number == declaration.line);
        let said = line.and_then(|line| line.code.split_once(" : ")).map_or("", |(_, said)| said.trim());
        let mut modules =
            self.source.imports.iter().filter(|import| {
                import.whole && [".Goals", ".Given"].iter().any(|module| import.path.ends_with(module))
            });
        let is_goal = modules.any(|goals| said == format!("{}.{name}", goals.names[0].here));
        is_goal || self.source.path.ends_with("/Proof.antt") && name.ends_with("_spec")
    }
}

/// The definitions and lemmas that a line of code hands to the check's tactics, as `using(crate::proofs::Rows::listed)` does.
fn in_attributes<'a>(path: &str, code: &'a str) -> Vec<(String, &'a str)> {
    let own = path.trim_start_matches("crates/").split('/').next().unwrap_or_default();
    let words = code.split(|c: char| c.is_whitespace() || "(),[]".contains(c));
    let paths = words.filter(|word| ["::proofs::", "::specs::"].iter().any(|folder| word.contains(folder)));
    let named = paths.filter_map(|word| word.rsplit_once("::"));
    let module = |path: &str| path.replacen("crate::", &format!("{own}::"), 1).replace("::", ".");
    named.map(|(path, name)| (format!("Rattle.{}", module(path)), name)).collect()
}

fn declared<'a>(path: &'a str, text: &'a str) -> Declared<'a> {
    let source = Source::new(path, text);
    let outline = if path.ends_with(".antt") { outline(&source) } else { Vec::new() };
    let mut heads = outline.iter().peekable();
    let mut mentions: HashMap<&str, HashSet<&str>> = HashMap::new();
    // the name that a line says something of
    let mut owner = "";
    for line in &source.lines {
        if let Some(head) = heads.next_if(|head| head.line == line.number) {
            owner = head.name;
        }
        // to say how tight an operator binds is not to use it
        for word in words(path, line.code).filter(|_| !line.code.starts_with("infix")) {
            mentions.entry(word).or_default().insert(owner);
        }
    }
    let declarations = outline.into_iter().flat_map(Head::declarations).collect();
    Declared { source, declarations, mentions }
}

#[cfg(test)]
mod tests {
    use super::super::found;
    use super::*;

    const LEMMAS: &str = "\
pub used : A
used = here
here : A
here = used'
imported-only : A
imported-only = refl
recursive : ℕ → A
recursive (suc n) = recursive n
claimed : A
record R : Type 0 where
  pub field : A
  other : A
data D : Type 0 where
  one two : D
module _ (a : A) where
  inner : A
  inner = used-not
  module _ (b : B) where
    deep : A
    deep = refl
";

    const UNCITED: [(usize, &str); 6] =
        [(5, "imported-only"), (7, "recursive"), (12, "other"), (14, "one"), (16, "inner"), (19, "deep")];

    /// What is found where another crate's file uses these lemmas, but for what it has not used.
    fn found_beside(user: &str, used: &[&str]) {
        let files = [
            ("crates/a/proofs/L.antt", LEMMAS),
            ("crates/b/proofs/f/Proof.antt", user),
            (CLAIMS, "`claimed` in `a/proofs/L`"),
        ];
        let expected = UNCITED.iter().filter(|(_, name)| !used.contains(name));
        let expected: Vec<_> =
            expected.map(|(line, name)| format!("crates/a/proofs/L.antt:{line}: nobody cites {name}")).collect();
        assert_eq!(found(uncited, &files), expected);
    }

    #[test]
    fn a_lemma_that_nobody_cites_is_found() {
        let proof = "pub f_spec : S\nf_spec = used .field two D -- deep\n";
        found_beside(&format!("use Rattle.a.proofs.L.{{used, R as S, imported-only, D}}\n{proof}"), &[]);
        found_beside(&format!("use Rattle.a.proofs.{{L.used, L.R as S, L.D}}\n{proof}"), &[]);
        let whole = "use Rattle.a.proofs.L as M\npub f_spec : M.R\nf_spec = M.used .field two M.D M.deep\n";
        found_beside(whole, &["deep"]);
        let paths =
            "use Rattle.a.proofs.L.{used, R, D}\npub f_spec : R\nf_spec = Rattle.a.proofs.L.inner.1 used field two D\n";
        found_beside(paths, &["inner"]);
    }

    #[test]
    fn what_is_no_answer_of_a_functions_proof_is_found() {
        let check = |file: &str, proof: &str| found(uncited, &[(&format!("crates/a/proofs/f/{file}.antt"), proof)]);
        let answers = "use Rattle.a.proofs.f.Goals as goal\npub returns : goal.returns\nreturns c = tt\n\
                       left-over : goal.returns\nleft-over c = tt\nreturns-2 : (c : Start) → goal.at.returns-2\n";
        let expected = [(4, "left-over"), (6, "returns-2")];
        let expected =
            expected.map(|(line, name)| format!("crates/a/proofs/f/Answers.antt:{line}: nobody cites {name}"));
        assert_eq!(check("Answers", answers), expected);
        let invariants = "use Rattle.a.proofs.f.Given as given\nabbrev pub decreases-f : given.decreases-f\n\
                          abbrev pub loop-i : goal.loop-i\n";
        let expected = ["crates/a/proofs/f/Invariants.antt:3: nobody cites loop-i"];
        assert_eq!(check("Invariants", invariants), expected);
        assert!(check("Proof", "pub f_spec : A\nf_spec = tt\n").is_empty());
        assert_eq!(check("Answers", "pub f_spec : A\n"), ["crates/a/proofs/f/Answers.antt:1: nobody cites f_spec"]);
    }

    #[test]
    fn what_code_hands_to_the_tactics_is_cited() {
        let lemmas = "pub listed : A\nlisted = refl\npub other : A\nother = refl\n";
        let cited_by = |path: &str, code: &str| found(uncited, &[("crates/a/proofs/L.antt", lemmas), (path, code)]);
        let only_other = ["crates/a/proofs/L.antt:3: nobody cites other"];
        assert_eq!(cited_by("crates/a/src/lib.rt", "#[tactic(auto, using(crate::proofs::L::listed))]\n"), only_other);
        assert_eq!(cited_by("crates/b/src/lib.rt", "#[tactic(auto, using(a::proofs::L::listed))]\n"), only_other);
        assert_eq!(cited_by("crates/b/src/lib.rt", "#[tactic(auto, using(crate::proofs::L::listed))]\n").len(), 2);
    }

    #[test]
    fn examples_need_no_citation() {
        assert!(found(uncited, &[("crates/a/proofs/RunExamples.antt", "one : A\none = refl\n")]).is_empty());
    }
}
