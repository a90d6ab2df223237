//! The stored vectors: takes with what `takerun` prints, direct calls on one heap, and runs by either caller. A subject
//! answers each as a text of the stored form; the tests compare it, and `restate` stores it.
//!
//! `rt ci` runs the programs in crates/ on inputs and outputs that stand beside their code, and follows no link. So what
//! they are run on is stored there, and read from there, not here a second time.

mod lines;

use crate::plain::runner::MOST_STEPS;
use crate::subject::Subject;
use lines::Heap;
use std::fs;
use std::path::{Path, PathBuf};

/// A stored text, and what it says.
pub struct Stored {
    pub path: PathBuf,
    pub form: Form,
}

/// What a stored text says.
pub enum Form {
    /// What `takerun` prints for a take.
    Printed { take: PathBuf },
    /// What `takerun` prints for each take of a folder, after the take's name.
    Played { folder: PathBuf },
    /// Direct calls, each with its answer.
    Calls,
    /// The answers alone of such calls.
    Answers { calls: PathBuf },
    /// Runs, each with what it returns and leaves.
    Runs,
}

/// The repository.
pub fn root() -> &'static Path {
    Path::new(env!("CARGO_MANIFEST_DIR")).parent().expect("tests/ stands in the repository")
}

/// The files of a folder, in order.
fn listed(folder: &Path) -> Vec<PathBuf> {
    let entries = fs::read_dir(folder).unwrap_or_else(|e| panic!("{}: {e}", folder.display()));
    let mut paths: Vec<_> = entries.map(|entry| entry.expect("the folder can be listed").path()).collect();
    paths.sort();
    paths
}

/// All stored texts, in order: first those of tests/vectors, then those of the programs.
pub fn stored() -> Vec<Stored> {
    let folders = listed(&root().join("tests/vectors"));
    let paths = folders.iter().filter(|path| path.is_dir()).flat_map(|folder| listed(folder));
    let vectors = paths.filter_map(|path| {
        let form = match path.extension()?.to_str()? {
            "out" => Form::Printed { take: path.with_extension("take") },
            "calls" => Form::Calls,
            "txt" => Form::Runs,
            _ => return None,
        };
        Some(Stored { path, form })
    });
    vectors.chain(of_programs()).collect()
}

fn of_programs() -> [Stored; 4] {
    let file = |path: &str| root().join("crates").join(path);
    let printed = Form::Printed { take: file("takerun/stdin") };
    let played = Form::Played { folder: file("takes_test/data") };
    let answers = Form::Answers { calls: file("calls_test/stdin") };
    [
        Stored { path: file("takerun/stdout"), form: printed },
        Stored { path: file("takes_test/stdout"), form: played },
        Stored { path: file("calls_test/stdin"), form: Form::Calls },
        Stored { path: file("calls_test/stdout"), form: answers },
    ]
}

pub fn text(path: &Path) -> String {
    fs::read_to_string(path).unwrap_or_else(|e| panic!("{}: {e}", path.display()))
}

pub fn bytes(path: &Path) -> Vec<u8> {
    fs::read(path).unwrap_or_else(|e| panic!("{}: {e}", path.display()))
}

/// The name of a take's file without its extension.
fn name(path: &Path) -> String {
    path.file_stem().expect("a take has a name").to_string_lossy().into_owned()
}

impl Stored {
    /// The text as the subject has it.
    pub fn answered<S: Subject>(&self) -> String {
        match &self.form {
            Form::Printed { take } => takerun::<S>(&bytes(take)),
            Form::Played { folder } => {
                listed(folder).iter().map(|take| format!("{}\n{}", name(take), takerun::<S>(&bytes(take)))).collect()
            }
            Form::Calls => calls::<S>(&self.path),
            Form::Answers { calls: list } => calls::<S>(list).lines().filter_map(lines::answer).collect(),
            Form::Runs => text(&self.path).lines().map(|line| lines::run::<S>(line) + "\n").collect(),
        }
    }

    /// Holds the subject to the text, and counts its lines.
    pub fn hold<S: Subject>(&self) -> usize {
        let (found, expected) = (self.answered::<S>(), text(&self.path));
        for (index, (found, line)) in found.lines().zip(expected.lines()).enumerate() {
            assert_eq!(found, line, "{}: {}:{}", S::NAME, self.path.display(), index + 1);
        }
        assert!(found == expected, "{}: {}: other lines at the end", S::NAME, self.path.display());
        expected.lines().count()
    }

    /// The takes that the text is about, with what is to be printed for each.
    pub fn takes(&self) -> Vec<(PathBuf, String)> {
        let expected = text(&self.path);
        match &self.form {
            Form::Printed { take } => vec![(take.clone(), expected)],
            Form::Played { folder } => {
                let part = |take: PathBuf| {
                    let printed = section(&expected, &name(&take));
                    (take, printed)
                };
                listed(folder).into_iter().map(part).collect()
            }
            Form::Calls | Form::Answers { .. } | Form::Runs => Vec::new(),
        }
    }
}

/// The lines after the line that is a take's name, up to the next such line: no printed line is a number alone.
fn section(text: &str, name: &str) -> String {
    let after = text.lines().skip_while(|line| *line != name).skip(1);
    after.take_while(|line| line.parse::<u32>().is_err()).map(|line| format!("{line}\n")).collect()
}

fn calls<S: Subject>(path: &Path) -> String {
    let mut heap = Heap::new();
    text(path).lines().map(|line| heap.line::<S>(line) + "\n").collect()
}

/// What `takerun` prints, by the subject's run on buffers that fit.
pub fn takerun<S: Subject>(file: &[u8]) -> String {
    let m = file.get(1).copied().filter(|m| (5..=16).contains(m)).unwrap_or(5);
    let mut arena = vec![0xA5; 1 << m];
    let mut table = vec![0xA5; arena.len() / 16];
    let mut answers = vec![0xA5; 5 * MOST_STEPS];
    let ran = S::run(file, &mut arena, &mut table, &mut answers, MOST_STEPS as u32);
    if ran.number != 0 {
        return format!("refused {}\n", ran.number);
    }
    let mut printed = format!("heap {}\n", arena.len());
    for (index, answer) in answers.chunks(5).take(ran.count as usize).enumerate() {
        let value = answer[1..].iter().fold(0, |value, &byte| 256 * value + u32::from(byte));
        printed += &format!("{index} {} {value}\n", answer[0]);
    }
    printed + &format!("{} {}\n", if ran.stopped { "stopped" } else { "end" }, ran.count)
}
