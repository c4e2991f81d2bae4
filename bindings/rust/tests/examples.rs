//! The examples from the bench, each with both tables whole: what is filled,
//! and that everything after it is as it was.

mod support;
use nurl::Answer;
use support::{read_into, with_rest};

/// A source, the rows that its tables then begin with, and nothing else in them.
fn accepted(source: &str, tokens: &[u32], rows: &[u32]) {
    let lengths = (tokens.len() + 8, rows.len() + 11);
    let read = read_into(source.as_bytes(), b"", lengths);
    let answer = Answer::Accepted {
        tokens: tokens.len() as u32 / 3,
        rows: rows.len() as u32 / 4,
    };
    assert_eq!(read.answer, answer, "{source}");
    assert_eq!(read.tokens, with_rest(tokens, lengths.0), "{source}");
    assert_eq!(read.rows, with_rest(rows, lengths.1), "{source}");
}

/// A source that is refused 6, with all of its tokens in the table and every
/// whole row of the tree table zero.
fn no_program(source: &str, place: u32, tokens: &[u32]) {
    let lengths = (tokens.len() + 8, 19);
    let read = read_into(source.as_bytes(), b"", lengths);
    assert_eq!(read.answer, Answer::Refused { number: 6, place });
    assert_eq!(read.tokens, with_rest(tokens, lengths.0), "{source}");
    assert_eq!(read.rows, with_rest(&[0; 16], lengths.1), "{source}");
}

/// A source that is refused at its first byte, with both tables as they were.
fn refused_at_once(source: &str, number: u32) {
    let read = read_into(source.as_bytes(), b"", (8, 9));
    assert_eq!(read.answer, Answer::Refused { number, place: 0 });
    assert_eq!(read.tokens, with_rest(&[], 8));
    assert_eq!(read.rows, with_rest(&[], 9));
}

#[test]
fn m1_an_empty_source() {
    accepted("", &[], &[1, 0, 0, 1]);
}

#[test]
fn m2_a_constant_below_zero() {
    let tokens = [12, 0, 1, 2, 2, 1, 1, 4, 5, 5, 10, 3];
    let rows = [1, 0, 4, 4, 9, 0, 4, 3, 39, 1, 1, 1, 21, 3, 1, 1];
    accepted(": i floor -40", &tokens, &rows);
}

#[test]
fn m3_a_minus_apart_from_its_number() {
    no_program(
        ": i a - 4",
        3,
        &[12, 0, 1, 2, 2, 1, 1, 4, 1, 31, 6, 1, 5, 8, 1],
    );
}

#[rustfmt::skip]
#[test]
fn m4_a_band() {
    let tokens = [
        10, 0, 1,  1, 2, 1,  42, 4, 3,  2, 8, 1,  17, 10, 1,  21, 12, 1,
        2, 14, 1,  13, 16, 1,  5, 18, 3,  5, 22, 2,  22, 25, 1,  18, 27, 1,
    ];
    let rows = [
        1, 0, 12, 8,  6, 0, 12, 7,  39, 3, 1, 1,  14, 4, 8, 5,
        31, 5, 6, 4,  39, 6, 1, 1,  21, 8, 1, 1,  21, 9, 1, 1,
    ];
    accepted("@ g → v { [ i | -40 60 ] }", &tokens, &rows);
}

#[rustfmt::skip]
#[test]
fn m4_a_band_with_a_minus_apart() {
    let tokens = [
        10, 0, 1,  1, 2, 1,  42, 4, 3,  2, 8, 1,  17, 10, 1,  21, 12, 1,
        2, 14, 1,  13, 16, 1,  31, 18, 1,  5, 20, 2,  5, 23, 2,  22, 26, 1,  18, 28, 1,
    ];
    let rows = [
        1, 0, 13, 9,  6, 0, 13, 8,  39, 3, 1, 1,  14, 4, 9, 6,
        31, 5, 7, 5,  39, 6, 1, 1,  23, 8, 3, 3,  21, 9, 1, 1,  21, 10, 1, 1,
    ];
    accepted("@ g → v { [ i | - 40 60 ] }", &tokens, &rows);
}

#[rustfmt::skip]
#[test]
fn m5_two_question_marks_are_one_token() {
    let tokens = [
        10, 0, 1,  1, 2, 1,  41, 4, 2,  2, 6, 1,  1, 8, 1,
        42, 10, 3,  2, 14, 1,  17, 16, 1,  18, 18, 1,
    ];
    no_program("@ g ??i x → v { }", 2, &tokens);
}

#[test]
fn m7_one_backtick() {
    refused_at_once("`", 4);
}

#[test]
fn m8_one_comma() {
    refused_at_once(",", 3);
}
