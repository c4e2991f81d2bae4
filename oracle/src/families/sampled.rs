//! Cases of the samples of the source documents.

use crate::cases::Case;
use crate::samples::{Sample, GRAMMAR, README, README_TEXT, WITH_REMARKS};

fn all() -> impl Iterator<Item = &'static Sample> {
    README.iter().chain(README_TEXT).chain(GRAMMAR)
}

/// Every sample as its document has it, and lines with their remarks.
pub fn as_they_stand() -> Vec<Case> {
    let samples = all().map(|sample| Case::new(sample.text));
    samples.chain(WITH_REMARKS.iter().map(Case::new)).collect()
}

/// The samples of document 005 on one line, as document 006 has them.
pub fn on_one_line() -> Vec<Case> {
    let lines = README.iter().map(Sample::on_one_line);
    lines.map(Case::new).collect()
}

/// Every sample at its place in a program, once with the type names that the
/// samples speak of.
pub fn at_their_place() -> Vec<Case> {
    let mut cases = Vec::new();
    for sample in all() {
        cases.push(Case::new(sample.wrapped()));
        if sample.text.contains("String") || sample.text.contains("Point") {
            cases.push(Case::with_names(sample.wrapped(), "String\nPoint"));
        }
    }
    cases
}
