//! The scope's table of refusals: order, places, and what both tables hold
//! afterwards.

mod support;
use oracle::answer::{read, Answer};
use oracle::names::check_names;
use oracle::tokens::{tokenize, Tokenized};
use support::*;

/// The answer and both tables, for tables of these lengths in numbers.
fn read_into(
    source: &[u8],
    names: &[u8],
    tokens: usize,
    rows: usize,
) -> (Answer, Vec<u32>, Vec<u32>) {
    let mut token_table = pattern(tokens);
    let mut tree_table = pattern(rows);
    let answer = read(source, names, &mut token_table, &mut tree_table);
    (answer, token_table, tree_table)
}

fn refused(number: u32, place: u32) -> Answer {
    Answer::Refused { number, place }
}

/// A reading that is refused and leaves both tables unchanged.
fn refused_untouched(source: &[u8], names: &[u8], tokens: usize) -> Answer {
    let (answer, token_table, tree_table) = read_into(source, names, tokens, 50);
    assert_eq!(token_table, pattern(tokens));
    assert_eq!(tree_table, pattern(50));
    answer
}

#[test]
fn refusal_1_comes_first() {
    let mut source = vec![b' '; 1_048_576];
    assert_eq!(
        read_into(&source, b"", 0, 4).0,
        Answer::Accepted { tokens: 0, rows: 1 }
    );
    source.push(b' ');
    assert_eq!(refused_untouched(&source, b"", 30), refused(1, 0));
    source[0] = b',';
    assert_eq!(refused_untouched(&source, b"i", 30), refused(1, 0));
}

#[test]
fn refusal_2_comes_before_the_source_is_looked_at() {
    assert_eq!(refused_untouched(b",", b"i", 30), refused(2, 0));
    assert_eq!(refused_untouched(b"`", b"a\ni", 30), refused(2, 2));
    assert_eq!(refused_untouched(b"a", b"a\n", 0), refused(2, 2));
}

#[test]
fn name_lists() {
    assert_eq!(check_names(b""), None);
    assert_eq!(check_names(b"a"), None);
    assert_eq!(check_names(b"a\nBand\n_"), None);
    assert_eq!(check_names(b"m::Band"), None);
    assert_eq!(check_names(b"a\na"), None);
    assert_eq!(check_names(b"i"), Some(0));
    assert_eq!(check_names(b"a\nT"), Some(2));
    assert_eq!(check_names(b"a\nZ\nF"), Some(2));
    assert_eq!(check_names(b"a\n"), Some(2));
    assert_eq!(check_names(b"\n"), Some(0));
    assert_eq!(check_names(b"\na"), Some(0));
    assert_eq!(check_names(b"\n\n"), Some(0));
    assert_eq!(check_names(b"a\n\nc"), Some(2));
    assert_eq!(check_names(b"a\n\ni"), Some(2));
    assert_eq!(check_names(b"ab\n "), Some(3));
    assert_eq!(check_names(b" a"), Some(0));
    assert_eq!(check_names(b"a "), Some(0));
    assert_eq!(check_names(b"a\r\nc"), Some(0));
    assert_eq!(check_names(b"a//x"), Some(0));
    assert_eq!(check_names(b"m::i"), Some(0));
    assert_eq!(check_names(b"m::"), Some(0));
    assert_eq!(check_names(b"a c"), Some(0));
    assert_eq!(check_names(b"good\n9a"), Some(5));
    assert_eq!(check_names(b"good\n,"), Some(5));
    assert_eq!(check_names(b"good\n`"), Some(5));
}

#[test]
fn name_lists_have_a_longest_length() {
    let mut list = vec![b'a'; 16_384];
    assert_eq!(check_names(&list), None);
    list[16_383] = 10;
    assert_eq!(check_names(&list), Some(16_384));
    list[16_383] = b' ';
    list[100] = 10;
    assert_eq!(check_names(&list), Some(101));
    assert_eq!(check_names(&[b'a'; 16_385]), Some(0));
}

#[test]
fn refusals_3_and_4_leave_both_tables() {
    assert_eq!(refused_untouched(b": i a ,", b"", 30), refused(3, 6));
    assert_eq!(refused_untouched(b": i a `", b"", 30), refused(4, 6));
}

#[test]
fn refusal_5_waits_for_a_later_fault() {
    assert_eq!(refused_untouched(b": i a 1", b"", 11), refused(5, 4));
    assert_eq!(refused_untouched(b": i a 1", b"", 0), refused(5, 4));
    assert_eq!(refused_untouched(b": i a 1 ,", b"", 0), refused(3, 8));
    assert_eq!(refused_untouched(b": i a 1 `", b"", 3), refused(4, 8));
    // A source that is not a program is refused 5 all the same.
    assert_eq!(refused_untouched(b"; ; ;", b"", 8), refused(5, 3));
}

#[test]
fn refusals_6_to_8_fill_tokens_and_clear_whole_rows() {
    let cases: [(&[u8], usize, u32, u32); 2] = [(b": i a ;", 18, 6, 3), (b": i a 1", 15, 8, 4)];
    for (source, rows, number, place) in cases {
        let (answer, tokens, tree) = read_into(source, b"", 17, rows);
        assert_eq!(answer, refused(number, place));
        assert_eq!(tokens[..9], [12, 0, 1, 2, 2, 1, 1, 4, 1]);
        assert_eq!(tokens[12..], pattern(17)[12..]);
        let whole = rows / 4 * 4;
        assert!(tree[..whole].iter().all(|number| *number == 0));
        assert_eq!(tree[whole..], pattern(rows)[whole..]);
    }
}

#[test]
fn refusal_7_fills_tokens_and_clears_whole_rows() {
    let source = format!("@ g → v {{ {} 1 }}", "!".repeat(197));
    let (answer, tokens, tree) = read_into(source.as_bytes(), b"", 700, 11);
    assert_eq!(answer, refused(7, 202));
    assert_eq!(tokens[..3], [10, 0, 1]);
    assert_eq!(tokens[203 * 3], 18);
    assert_eq!(tokens[204 * 3..], pattern(700)[204 * 3..]);
    assert_eq!(tree[..8], [0; 8]);
    assert_eq!(tree[8..], pattern(11)[8..]);
}

#[test]
fn acceptance_leaves_the_other_rows() {
    let (answer, tokens, tree) = read_into(b": i floor -40", b"", 14, 18);
    assert_eq!(answer, Answer::Accepted { tokens: 4, rows: 4 });
    let expected_tokens = [12, 0, 1, 2, 2, 1, 1, 4, 5, 5, 10, 3];
    assert_eq!(tokens[..12], expected_tokens);
    assert_eq!(tokens[12..], pattern(14)[12..]);
    let expected_rows = [1, 0, 4, 4, 9, 0, 4, 3, 39, 1, 1, 1, 21, 3, 1, 1];
    assert_eq!(tree[..16], expected_rows);
    assert_eq!(tree[16..], pattern(18)[16..]);
}

#[test]
fn exact_room_is_room() {
    let (answer, _, _) = read_into(b": i floor -40", b"", 12, 16);
    assert_eq!(answer, Answer::Accepted { tokens: 4, rows: 4 });
    let (answer, _, _) = read_into(b": i floor -40", b"", 12, 15);
    assert_eq!(answer, refused(8, 4));
    let (answer, _, tree) = read_into(b"", b"", 0, 3);
    assert_eq!(answer, refused(8, 1));
    assert_eq!(tree, pattern(3));
}

#[test]
fn the_tokeniser_alone() {
    let mut table = pattern(7);
    assert_eq!(tokenize(b"a 1", &mut table), Tokenized::Tokens(2));
    assert_eq!(table, [1, 0, 1, 5, 2, 1, 900_006]);
    let mut table = pattern(5);
    assert_eq!(tokenize(b"a 1", &mut table), Tokenized::Refused(5, 2));
    assert_eq!(table, pattern(5));
    assert_eq!(tokenize(b"a 1 ,", &mut table), Tokenized::Refused(3, 4));
    assert_eq!(tokenize(b"a 1 `", &mut table), Tokenized::Refused(4, 4));
    assert_eq!(table, pattern(5));
}
