//! The library beside plain Rust, in one process on the same buffers: for each work the best of many rounds,
//! which take turns. Prints tables in Markdown. `./bench` builds and runs it; words name the sections to run.

mod bytes;
mod c;
mod calls;
mod cases;
mod files;
mod growth;
mod limits;
mod print;
mod race;
mod runs;
mod scans;
mod searches;
mod tables;
mod works;

use tulivombe_tests::subject::{Plain, Subject};

#[cfg(feature = "library")]
use tulivombe_tests::library::Library as Ours;
/// Without the library the tables show plain Rust twice, and so how steady the machine is.
#[cfg(not(feature = "library"))]
use Plain as Ours;

const SECTIONS: [(&str, fn()); 8] = [
    ("runs", runs::section),
    ("calls", calls::section),
    ("scans", scans::section),
    ("searches", searches::section),
    ("bytes", bytes::section),
    ("growth", growth::section),
    ("c", c::section),
    ("limits", limits::section),
];

fn main() {
    let wanted: Vec<String> = std::env::args().skip(1).collect();
    let names = SECTIONS.map(|(name, _)| name);
    if let Some(word) = wanted.iter().find(|word| !names.contains(&word.as_str())) {
        eprintln!("bench: no section '{word}'; there are {}", names.join(" "));
        std::process::exit(2);
    }
    println!("Times in nanoseconds, best round of {:?}; ratio is {} to {}.", race::RACE, Ours::NAME, Plain::NAME);
    if cfg!(not(feature = "library")) {
        println!("The library is not linked: both columns are plain Rust.");
    }
    let run = move || {
        for (name, section) in SECTIONS {
            if wanted.is_empty() || wanted.iter().any(|word| word == name) {
                section();
            }
        }
    };
    // A thread's stack has the same place in its page each time, the first one's has not, and some places are slower.
    std::thread::spawn(run).join().expect("all sections end");
}
