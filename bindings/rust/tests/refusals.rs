//! The eight refusals: their order and places, and what both tables hold
//! afterwards, for tables whose lengths are not a whole number of rows too.

mod support;
use nurl::{Answer, NAMES_LIMIT, SOURCE_LIMIT};
use support::{read_into, with_rest};

/// Reads with tables of all lengths around these, and sees that the refusal is
/// this one and that both tables are as they were.
fn untouched(source: &[u8], names: &[u8], number: u32, place: u32, token_lengths: &[usize]) {
    for token_length in token_lengths {
        for row_length in 0..6 {
            let lengths = (*token_length, row_length);
            let read = read_into(source, names, lengths);
            assert_eq!(read.answer, Answer::Refused { number, place });
            assert_eq!(read.tokens, with_rest(&[], lengths.0));
            assert_eq!(read.rows, with_rest(&[], lengths.1));
        }
    }
}

#[test]
fn a_source_over_the_limit_is_refused_1_first() {
    let mut source = vec![b' '; SOURCE_LIMIT + 1];
    source[0] = b',';
    untouched(&source, b"i", 1, 0, &[0, 1, 30]);
}

#[test]
fn a_source_at_the_limit_is_read() {
    let source = vec![b' '; SOURCE_LIMIT];
    let read = read_into(&source, b"", (2, 5));
    assert_eq!(read.answer, Answer::Accepted { tokens: 0, rows: 1 });
    assert_eq!(read.tokens, with_rest(&[], 2));
    assert_eq!(read.rows, with_rest(&[1, 0, 0, 1], 5));
}

#[test]
fn a_bad_list_of_names_is_refused_2() {
    untouched(b",", &[b'a'; NAMES_LIMIT + 1], 2, 0, &[0, 7]);
    untouched(b",", b"Band\ni\n", 2, 5, &[0, 7]);
    untouched(b",", b"Band\n", 2, 5, &[0, 7]);
}

#[test]
fn a_bad_byte_and_an_open_string_come_before_a_lack_of_room() {
    untouched(b": i a ,", b"", 3, 6, &[0, 8, 9, 11]);
    untouched(b": i a `x", b"", 4, 6, &[0, 8, 9, 11]);
    untouched(b": i ` , ` , `", b"", 3, 10, &[0, 9]);
}

#[test]
fn a_lack_of_token_rows_is_refused_5() {
    untouched(b": i a 1", b"", 5, 4, &[0, 1, 9, 10, 11]);
}

/// The tokens of `: i a 1`, and of `: i a -`, which is not a program.
const CONSTANT: [u32; 12] = [12, 0, 1, 2, 2, 1, 1, 4, 1, 5, 6, 1];
const CUT_SHORT: [u32; 12] = [12, 0, 1, 2, 2, 1, 1, 4, 1, 31, 6, 1];

/// Reads with token tables of 12 to 15 numbers and tree tables of up to so many,
/// and sees that all tokens are there and all whole tree rows zero.
fn zeroed(source: &[u8], number: u32, place: u32, tokens: &[u32], row_lengths: usize) {
    for extra in 0..4 {
        for row_length in 0..row_lengths {
            let lengths = (tokens.len() + extra, row_length);
            let read = read_into(source, b"", lengths);
            assert_eq!(read.answer, Answer::Refused { number, place });
            assert_eq!(read.tokens, with_rest(tokens, lengths.0));
            let zeros = vec![0; row_length / 4 * 4];
            assert_eq!(read.rows, with_rest(&zeros, lengths.1));
        }
    }
}

#[test]
fn no_program_is_refused_6() {
    zeroed(b": i a -", 6, 3, &CUT_SHORT, 40);
    zeroed(b": i a", 6, 3, &CONSTANT[..9], 40);
}

#[test]
fn a_lack_of_tree_rows_is_refused_8() {
    zeroed(b": i a 1", 8, 4, &CONSTANT, 16);
}

/// `@ g → v {`, so many times `!`, then `1 }`.
fn nested(times: usize) -> String {
    format!("@ g → v {{ {} 1 }}", "!".repeat(times))
}

#[test]
fn too_deep_is_refused_7() {
    let read = read_into(nested(197).as_bytes(), b"", (204 * 3 + 2, 403));
    let answer = Answer::Refused {
        number: 7,
        place: 202,
    };
    assert_eq!(read.answer, answer);
    assert_eq!(read.tokens[..3], [10, 0, 1]);
    assert_eq!(read.tokens[203 * 3], 18);
    assert_eq!(read.tokens[204 * 3..], with_rest(&[], 614)[204 * 3..]);
    assert_eq!(read.rows, with_rest(&[0; 400], 403));
}

#[test]
fn one_level_less_is_accepted() {
    let read = read_into(nested(196).as_bytes(), b"", (203 * 3, 807));
    let answer = Answer::Accepted {
        tokens: 203,
        rows: 201,
    };
    assert_eq!(read.answer, answer);
    assert_eq!(read.rows[..4], [1, 0, 203, 201]);
    assert_eq!(read.rows[804..], with_rest(&[], 807)[804..]);
}
