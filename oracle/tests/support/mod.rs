//! Small functions shared by the tests: readings with ample tables.
#![allow(dead_code)]

use oracle::answer::{read, Answer};
use oracle::tokens::{tokenize, Tokenized};

pub const ROOM: usize = 4_000;

/// A table in which every number differs from what a reading would write.
pub fn pattern(length: usize) -> Vec<u32> {
    (0..length as u32).map(|index| 900_000 + index).collect()
}

/// The token rows of a source that must have no lexical fault.
pub fn token_rows(source: &[u8]) -> Vec<[u32; 3]> {
    let mut table = pattern(ROOM * 3);
    match tokenize(source, &mut table) {
        Tokenized::Tokens(count) => {
            let rows = table.chunks(3).take(count as usize);
            rows.map(|row| [row[0], row[1], row[2]]).collect()
        }
        refused => panic!("{:?}: {refused:?}", String::from_utf8_lossy(source)),
    }
}

/// The kinds of the tokens of a source.
pub fn token_kinds(source: &str) -> Vec<u32> {
    let rows = token_rows(source.as_bytes());
    rows.iter().map(|row| row[0]).collect()
}

/// The texts of the tokens of a source.
pub fn token_texts(source: &str) -> Vec<String> {
    let text_of = |row: &[u32; 3]| {
        let start = row[1] as usize;
        let end = start + row[2] as usize;
        String::from_utf8(source.as_bytes()[start..end].to_vec()).unwrap()
    };
    token_rows(source.as_bytes()).iter().map(text_of).collect()
}

/// What the tokeniser answers with an ample table, which must be unchanged if
/// it refuses.
pub fn lexical_refusal(source: &[u8]) -> (u32, u32) {
    let mut table = pattern(ROOM * 3);
    match tokenize(source, &mut table) {
        Tokenized::Refused(number, place) => {
            assert_eq!(table, pattern(ROOM * 3));
            (number, place)
        }
        Tokenized::Tokens(_) => panic!("{:?}", String::from_utf8_lossy(source)),
    }
}

/// The answer to a source with extra names and ample tables.
pub fn answer_with(source: &str, names: &str) -> Answer {
    let mut tokens = pattern(ROOM * 3);
    let mut rows = pattern(ROOM * 4);
    read(source.as_bytes(), names.as_bytes(), &mut tokens, &mut rows)
}

/// The answer to a source without extra names.
pub fn answer(source: &str) -> Answer {
    answer_with(source, "")
}

/// The number and place of a refusal.
pub fn refusal(source: &str) -> (u32, u32) {
    match answer(source) {
        Answer::Refused { number, place } => (number, place),
        accepted => panic!("{source}: {accepted:?}"),
    }
}

/// The two row counts of an accepted source.
pub fn counts(source: &str) -> (u32, u32) {
    match answer(source) {
        Answer::Accepted { tokens, rows } => (tokens, rows),
        refused => panic!("{source}: {refused:?}"),
    }
}

/// The tree rows of an accepted source with extra names.
pub fn tree_with(source: &str, names: &str) -> Vec<[u32; 4]> {
    let mut tokens = pattern(ROOM * 3);
    let mut table = pattern(ROOM * 4);
    let answer = read(source.as_bytes(), names.as_bytes(), &mut tokens, &mut table);
    match answer {
        Answer::Accepted { rows, .. } => {
            let rows = table.chunks(4).take(rows as usize);
            rows.map(|row| [row[0], row[1], row[2], row[3]]).collect()
        }
        refused => panic!("{source}: {refused:?}"),
    }
}

/// The tree rows of an accepted source without extra names.
pub fn tree(source: &str) -> Vec<[u32; 4]> {
    tree_with(source, "")
}

/// The rows of the statements of a body, written inside `@ g → v { .. }`, with
/// token 0 the first token of the body.
pub fn body(statements: &str) -> Vec<[u32; 4]> {
    body_after("", statements)
}

/// The same with other declarations in front of the function.
pub fn body_after(declarations: &str, statements: &str) -> Vec<[u32; 4]> {
    let source = format!("{declarations} @ g → v {{ {statements} }}");
    let rows = tree(&source);
    let block = rows.iter().position(|row| row[0] == 14).unwrap();
    let first = rows[block][1] + 1;
    let inner = rows[block + 1..].iter();
    inner
        .map(|row| [row[0], row[1] - first, row[2], row[3]])
        .collect()
}

/// The number and place of a refused body, with place 0 its first token.
pub fn body_refusal(statements: &str) -> (u32, i64) {
    let (number, place) = refusal(&format!("@ g → v {{ {statements} }}"));
    (number, i64::from(place) - 5)
}
