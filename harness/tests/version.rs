//! The version, as the library, its header and the list of changes tell it.

use std::fs;

use harness::face::version;
use harness::program::project;

#[test]
fn one_version_everywhere() {
    let changes = fs::read_to_string(project("CHANGELOG.md")).expect("a list of changes");
    let mut titles = changes.lines().filter_map(|line| line.strip_prefix("## "));
    // What was added since the last release has no number yet.
    let newest = titles.find(|&title| title != "Unreleased").expect("a version");
    let parts = newest.split_whitespace().next().expect("a version").split('.');
    let number =
        parts.fold(0, |number, part| number * 100 + part.parse::<u32>().expect("a number"));
    assert_eq!(version(), number);

    let header = fs::read_to_string(project("include/longwave.h")).expect("the header");
    assert!(header.contains(&format!("#define LW_VERSION {number}\n")));
    assert_eq!(number, 40_000);
}
