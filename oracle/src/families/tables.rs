//! Cases of table lengths in whole readings, and of the longest sources that
//! are programs.

use crate::cases::{Case, Needed};
use crate::settings::{ROW_WIDTH, SOURCE_LIMIT, TOKEN_WIDTH};

/// A source of each answer from 6 on, and accepted ones.
fn sources() -> Vec<String> {
    vec![
        String::new(),
        "// nothing".to_string(),
        ": i floor -40".to_string(),
        "@ g → v { [ i | -40 60 ] }".to_string(),
        ": i a - 4".to_string(),
        "@".to_string(),
        too_deep(),
    ]
}

/// A source that is nested one level too deep.
pub fn too_deep() -> String {
    format!("@ g → v {{ {} 1 }}", "!".repeat(197))
}

/// No row, one row, one row too few, exactly enough and one row more.
fn around(needed: usize) -> Vec<usize> {
    let mut rows = vec![0, 1, needed.saturating_sub(1), needed, needed + 1];
    rows.sort();
    rows.dedup();
    rows
}

/// Token tables without rows, with one row too few, exactly enough, and one
/// row more, each with stray numbers.
pub fn token_room() -> Vec<Case> {
    let mut cases = Vec::new();
    for source in sources() {
        let needed = Needed::of(source.as_bytes(), b"").tokens;
        for rows in around(needed) {
            for stray in 0..TOKEN_WIDTH {
                let length = rows * TOKEN_WIDTH + stray;
                cases.push(Case::new(&source).token_table(length));
            }
        }
    }
    cases
}

/// Tree tables likewise, with none to three stray numbers, also beside a token table that is too small; and many
/// rows.
pub fn tree_room() -> Vec<Case> {
    let mut cases = Vec::new();
    for source in sources() {
        let needed = Needed::of(source.as_bytes(), b"");
        for rows in around(needed.rows) {
            for stray in 0..ROW_WIDTH {
                let length = rows * ROW_WIDTH + stray;
                let case = Case::new(&source).tree_table(length);
                cases.push(case.clone());
                if needed.tokens > 0 {
                    cases.push(case.token_table(needed.token_length() - 1));
                }
            }
        }
        cases.push(Case::new(&source).tree_table(100 * ROW_WIDTH + 2));
        cases.push(Case::new(&source).tree_table(12_000));
    }
    cases
}

/// A piece that is brought to this length by spaces.
fn padded(text: &str, length: usize) -> Vec<u8> {
    let mut piece = text.as_bytes().to_vec();
    piece.resize(length, b' ');
    piece
}

/// A case whose source is a piece repeated to exactly this length.
fn filled(piece: &[u8], length: usize) -> Case {
    assert_eq!(length % piece.len(), 0);
    let case = Case::new(piece).repeated(length / piece.len());
    case.token_table(4_000).tree_table(4_003)
}

/// Sources of 1,048,576 bytes and of one more that are programs, or would be.
pub fn longest_programs() -> Vec<Case> {
    let comment = b": i a 1 // x, `x";
    let comment_long = b": i a 1 // x, `xx";
    let constants = padded(": i floor -40", 16_384);
    let functions = padded("@ g → v { ( h 1 ) }\n// , `\n", 16_384);
    let faulty = padded("@ g → v { ( h 1 }\n// , `\n", 16_384);
    let many = Case::new(": i a 1 ").repeated(300);
    vec![
        filled(b" ", SOURCE_LIMIT),
        filled(b" ", SOURCE_LIMIT + 1),
        filled(comment, SOURCE_LIMIT),
        filled(comment_long, SOURCE_LIMIT + 1),
        filled(comment, SOURCE_LIMIT).names("Foo"),
        filled(comment, SOURCE_LIMIT).names("Foo\n"),
        filled(comment_long, SOURCE_LIMIT + 1).names("Foo\n"),
        filled(comment, SOURCE_LIMIT).token_table(11),
        filled(comment, SOURCE_LIMIT).tree_table(15),
        filled(b"@ g \xE2\x86\x92 v { 1 //", SOURCE_LIMIT),
        filled(&constants, SOURCE_LIMIT),
        filled(&constants, SOURCE_LIMIT).tree_table(771),
        filled(&constants, SOURCE_LIMIT).token_table(767),
        filled(&functions, SOURCE_LIMIT),
        filled(&faulty, SOURCE_LIMIT),
        many.clone().token_table(3_600).tree_table(3_604),
        many.clone().token_table(3_600).tree_table(3_603),
        many.token_table(3_599).tree_table(12_000),
        // The last copy's backtick opens a string.
        filled(b": s a `x` //\n `\n", SOURCE_LIMIT),
        filled(b": s a `` // `\n\n`", SOURCE_LIMIT),
    ]
}
