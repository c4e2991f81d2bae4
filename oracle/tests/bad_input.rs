//! Input of every kind gets an answer: single bytes, cut marks and strings,
//! the longest source, and tables of odd lengths.

mod support;
use oracle::answer::{read, Answer};
use oracle::desk::desk_output;
use oracle::tokens::{tokenize, Tokenized};
use support::*;

#[test]
fn one_byte_of_each_value() {
    for byte in 0..=255u8 {
        let mut table = pattern(6);
        let answer = tokenize(&[byte], &mut table);
        let expected = match byte {
            9 | 10 | 13 | 32 => Tokenized::Tokens(0),
            b'`' => Tokenized::Refused(4, 0),
            b'"' | b'\'' | b',' => Tokenized::Refused(3, 0),
            33..=126 => Tokenized::Tokens(1),
            _ => Tokenized::Refused(3, 0),
        };
        assert_eq!(answer, expected, "byte {byte}");
        assert_eq!(table[3..], pattern(6)[3..]);
        let written = answer == Tokenized::Tokens(1);
        assert_eq!(table[..3] != pattern(3), written);
        if written {
            assert_eq!(table[1..3], [0, 1]);
        }
    }
}

#[test]
fn empty_source() {
    let mut none: [u32; 0] = [];
    assert_eq!(tokenize(b"", &mut none), Tokenized::Tokens(0));
    let mut tokens: [u32; 0] = [];
    let answer = read(b"", b"", &mut tokens, &mut none);
    assert_eq!(
        answer,
        Answer::Refused {
            number: 8,
            place: 1
        }
    );
}

#[test]
fn half_an_arrow_and_an_open_string_at_the_end() {
    assert_eq!(lexical_refusal(b"@ g \xe2"), (3, 4));
    assert_eq!(lexical_refusal(b"@ g \xe2\x86"), (3, 4));
    assert_eq!(lexical_refusal(b"@ g `"), (4, 4));
    assert_eq!(lexical_refusal(b"@ g `abc\n"), (4, 4));
}

#[test]
fn the_longest_source_and_one_byte_more() {
    let mut source = vec![b';'; 1_048_576];
    let mut table = pattern(3);
    assert_eq!(
        tokenize(&source, &mut table),
        Tokenized::Refused(5, 1_048_576)
    );
    source[1_048_575] = b',';
    assert_eq!(
        tokenize(&source, &mut table),
        Tokenized::Refused(3, 1_048_575)
    );
    source.push(b';');
    assert_eq!(tokenize(&source, &mut table), Tokenized::Refused(1, 0));
    assert_eq!(table, pattern(3));
    let word = vec![b'a'; 1_048_576];
    assert_eq!(tokenize(&word, &mut table), Tokenized::Tokens(1));
    assert_eq!(table, [1, 0, 1_048_576]);
}

#[test]
fn a_long_list_is_no_nesting() {
    // Items of a list are read in a loop, so many of them cause no trouble.
    let source = format!("@ g → v {{ {} }}", "x ".repeat(300_000));
    let mut tokens = vec![0; 3 * 300_006];
    let mut rows = vec![0; 4 * 300_004];
    let answer = read(source.as_bytes(), b"", &mut tokens, &mut rows);
    let expected = Answer::Accepted {
        tokens: 300_006,
        rows: 300_004,
    };
    assert_eq!(answer, expected);
}

#[test]
fn token_tables_of_odd_lengths() {
    for length in 0..12 {
        let mut table = pattern(length);
        let answer = tokenize(b"a ( 1", &mut table);
        if length < 9 {
            assert_eq!(answer, Tokenized::Refused(5, 3));
            assert_eq!(table, pattern(length));
        } else {
            assert_eq!(answer, Tokenized::Tokens(3));
            assert_eq!(table[..9], [1, 0, 1, 19, 2, 1, 5, 4, 1]);
            assert_eq!(table[9..], pattern(length)[9..]);
        }
    }
}

#[test]
fn the_desk_program() {
    assert_eq!(desk_output(b""), "accepted 0 1\n1 0 0 1\n");
    assert_eq!(desk_output(&[b' '; 65_535]), "accepted 0 1\n1 0 0 1\n");
    assert_eq!(desk_output(&[b' '; 65_536]), "refused 1 0\n");
    assert_eq!(desk_output(&[b','; 65_536]), "refused 1 0\n");
    assert_eq!(desk_output(b"`"), "refused 4 0\n");
    assert_eq!(desk_output(&[b';'; 5_000]), "refused 6 0\n");
    assert_eq!(desk_output(&[b';'; 5_001]), "refused 5 5001\n");
    let statements = |count: usize| format!("@ g → v {{ {} }}", "x ".repeat(count));
    let accepted = desk_output(statements(3_996).as_bytes());
    assert!(accepted.starts_with("accepted 4002 4000\n1 0 4002 4000\n"));
    assert_eq!(accepted.lines().count(), 4_001);
    let refused = desk_output(statements(3_997).as_bytes());
    assert_eq!(refused, "refused 8 4001\n");
}
