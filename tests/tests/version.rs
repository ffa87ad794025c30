//! The version that the header names is the changelog's newest.

use std::fs;
use std::path::Path;

type Version = [u32; 3];

fn text(name: &str) -> String {
    let path = Path::new(env!("CARGO_MANIFEST_DIR")).join("..").join(name);
    fs::read_to_string(&path).unwrap_or_else(|told| panic!("{}: {told}", path.display()))
}

/// Three numbers with points between, as "1.1.0".
fn version(written: &str) -> Version {
    let numbers: Option<Vec<u32>> = written.split('.').map(|number| number.parse().ok()).collect();
    numbers
        .and_then(|numbers| numbers.try_into().ok())
        .unwrap_or_else(|| panic!("{written:?} is no version as 1.1.0 is"))
}

fn defined<'a>(header: &'a str, name: &str) -> &'a str {
    let mut values = header.lines().filter_map(|line| line.strip_prefix(&format!("#define {name} ")));
    let value = values.next().unwrap_or_else(|| panic!("the header does not define {name}"));
    assert_eq!(values.next(), None, "{name} is defined twice");
    value.trim()
}

/// The versions of the changelog's headings, from the top; what follows the number is left to the words.
fn headings() -> Vec<Version> {
    let changelog = text("CHANGELOG.md");
    let headings = changelog.lines().filter_map(|line| line.strip_prefix("## "));
    headings.map(|heading| version(heading.split_whitespace().next().unwrap_or(""))).collect()
}

#[test]
fn header_names_the_changelogs_newest_version() {
    let header = text("include/doljurven.h");
    let named = version(defined(&header, "NMC_VERSION").trim_matches('"'));
    assert_eq!(headings().first(), Some(&named));
    let numbers = ["NMC_VERSION_MAJOR", "NMC_VERSION_MINOR", "NMC_VERSION_PATCH"];
    assert_eq!(numbers.map(|name| defined(&header, name)), named.map(|number| number.to_string()));
}

#[test]
fn versions_fall_down_the_changelog() {
    let headings = headings();
    for pair in headings.windows(2) {
        assert!(pair[0] > pair[1], "{:?} stands above {:?}", pair[0], pair[1]);
    }
    assert_eq!(headings.last(), Some(&[1, 0, 0]), "the base is the first version");
}

/// Every version says something of itself.
#[test]
fn every_version_has_words() {
    let changelog = text("CHANGELOG.md");
    for entry in changelog.split("\n## ").skip(1) {
        let (heading, words) = entry.split_once('\n').unwrap_or((entry, ""));
        assert!(!words.trim().is_empty(), "{heading} has no words");
    }
}
