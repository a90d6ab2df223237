//! The repository is tidy: see `src/tidy/`.

use tulivombe_tests::tidy::Repository;
use tulivombe_tests::vectors::root;

#[test]
fn nothing_is_left_to_mend() {
    let findings = Repository::load(root()).findings();
    let list: String = findings.iter().map(|finding| format!("{finding}\n")).collect();
    assert!(findings.is_empty(), "{} found:\n{list}", findings.len());
}
