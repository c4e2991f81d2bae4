//! The scripts of the documents have the answers that the documents state.

use oracle::answer::Answer;
use oracle::documents::{blocks, documents, Block};

/// The scripts of a document, which must be readable.
fn scripts(name: &str, text: &str) -> Vec<Block> {
    match blocks(text) {
        Ok(found) => found,
        Err(message) => panic!("docs/{name}, {message}"),
    }
}

#[test]
fn every_script_has_the_answer_that_is_stated() {
    for (name, text) in documents() {
        for block in scripts(name, &text) {
            let place = format!("docs/{name}, line {}", block.line);
            assert_eq!(block.given(), block.stated, "{place}");
        }
    }
}

/// Whether a script is refused with this number and the next one is accepted.
fn is_mended(pair: &[Block], wanted: u32) -> bool {
    matches!(pair[0].stated, Answer::Refused { number, .. } if number == wanted)
        && matches!(pair[1].stated, Answer::Accepted { .. })
}

#[test]
fn every_refusal_has_a_bad_script_and_then_a_mended_one() {
    let (name, text) = &documents()[0];
    assert_eq!(*name, "REFUSALS.md");
    let found = scripts(name, text);
    for number in 1..=8 {
        let mended = found.windows(2).any(|pair| is_mended(pair, number));
        assert!(mended, "docs/{name}: refusal {number}");
    }
}
