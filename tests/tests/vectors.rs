//! The stored vectors of document 01, and of the landed requests of document 02.

use tulivombe_tests::literal::Literal;
use tulivombe_tests::plain::runner;
use tulivombe_tests::subject::{Plain, Subject};
use tulivombe_tests::vectors::{bytes, stored, Form};

/// Each form's count of stored lines, so that none is lost.
fn all<S: Subject>() {
    let lines = stored().iter().fold([0; 5], |mut lines, text| {
        let form = match text.form {
            Form::Printed { .. } => 0,
            Form::Played { .. } => 1,
            Form::Calls => 2,
            Form::Answers { .. } => 3,
            Form::Runs => 4,
        };
        lines[form] += text.hold::<S>();
        lines
    });
    assert_eq!(lines, [20065, 9412, 15304, 558, 250]);
}

#[test]
fn plain() {
    all::<Plain>();
}

#[test]
fn literal() {
    all::<Literal>();
}

#[test]
fn plain_takerun() {
    let takes: Vec<_> = stored().iter().flat_map(|text| text.takes()).collect();
    assert_eq!(takes.len(), 108);
    for (take, printed) in takes {
        assert_eq!(runner::takerun(&bytes(&take)), printed, "{}", take.display());
    }
}

#[cfg(feature = "library")]
#[test]
fn library() {
    all::<tulivombe_tests::library::Library>();
}
