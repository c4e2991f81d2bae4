//! What is counted for the coverage has a name in the lists; and, with the
//! cargo feature `coverage`, no count is zero.

use oracle::points::{ALTERNATIVES, CONDITIONS, LIMITS};

const SOURCES: [&str; 7] = [
    include_str!("../src/coverage.rs"),
    include_str!("../src/parser.rs"),
    include_str!("../src/names.rs"),
    include_str!("../src/declarations.rs"),
    include_str!("../src/statements.rs"),
    include_str!("../src/expressions.rs"),
    include_str!("../src/types.rs"),
];

fn is_listed(name: &str) -> bool {
    ALTERNATIVES.contains(&name)
        || CONDITIONS.contains(&name)
        || LIMITS.iter().any(|(limit, _)| *limit == name)
}

/// The string literals of a source text that have a space in them, without
/// those of comments and attributes.
fn literals(text: &str) -> Vec<String> {
    let mut found = Vec::new();
    for line in text.lines() {
        let line = line.trim_start();
        if line.starts_with("//") || line.starts_with('#') {
            continue;
        }
        let parts: Vec<&str> = line.split('"').collect();
        for part in parts.iter().skip(1).step_by(2) {
            if part.contains(' ') {
                found.push(part.replace("\\\\", "\\"));
            }
        }
    }
    found
}

#[test]
fn every_name_that_is_counted_is_listed() {
    let not_counted = ["an operator", "a base type"];
    let mut names = 0;
    for name in SOURCES.iter().flat_map(|text| literals(text)) {
        if not_counted.contains(&name.as_str()) {
            continue;
        }
        assert!(is_listed(&name), "{name}");
        names += 1;
    }
    assert!(names > 120, "{names}");
}

#[cfg(feature = "coverage")]
#[test]
fn no_count_is_zero() {
    let text = oracle::report::coverage_text();
    let zeros: Vec<&str> = text.lines().filter(|line| line.ends_with(": 0")).collect();
    assert!(zeros.is_empty(), "{zeros:#?}");
    assert!(text.lines().count() > 400);
}

#[cfg(feature = "coverage")]
#[test]
fn every_count_is_printed() {
    let found = oracle::report::coverage();
    for (name, counts) in &found.named {
        for held in [false, true] {
            let is_printed = CONDITIONS.contains(name)
                || (held && ALTERNATIVES.contains(name))
                || LIMITS.contains(&(*name, held));
            assert!(
                counts[usize::from(held)] == 0 || is_printed,
                "{name} {held}"
            );
        }
    }
}
