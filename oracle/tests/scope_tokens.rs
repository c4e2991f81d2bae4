//! Every sentence of the scope's section "From bytes to tokens", and the
//! examples and misreadings that are about tokens.

mod support;
use oracle::kinds::token::{self, MARKS};
use support::*;

#[test]
fn spaces_and_comments_are_skipped() {
    assert!(token_rows(b"").is_empty());
    assert!(token_rows(b" \t\n\r").is_empty());
    assert!(token_rows(b"// all of it").is_empty());
    assert!(token_rows(b"//").is_empty());
    assert!(token_rows(b"// , ` \xff").is_empty());
    assert_eq!(token_rows(b"//x\na"), [[1, 4, 1]]);
    assert!(token_rows(b"//x\ra").is_empty());
    assert_eq!(token_rows(b"a//b\nc"), [[1, 0, 1], [1, 5, 1]]);
    assert_eq!(token_rows(b"/ /"), [[32, 0, 1], [32, 2, 1]]);
    assert_eq!(token_rows(b"///\n/"), [[32, 4, 1]]);
    assert_eq!(token_rows(b"+//\n-//"), [[30, 0, 1], [31, 4, 1]]);
}

#[test]
fn words_are_classified() {
    for word in ["i", "u", "f", "b", "s", "v"] {
        assert_eq!(token_kinds(word), [token::KEYWORD]);
    }
    assert_eq!(token_kinds("T F"), [token::BOOLEAN, token::BOOLEAN]);
    assert_eq!(token_kinds("Z"), [token::SIZEOF]);
    let idents = [
        "a", "_", "__", "I", "t", "z", "i8", "ii", "_i", "TT", "Z9", "a_1Z",
    ];
    for word in idents {
        assert_eq!(token_kinds(word), [token::IDENT], "{word}");
    }
    assert_eq!(token_rows(b"abc_9Z i"), [[1, 0, 6], [2, 7, 1]]);
    assert_eq!(token_texts("9a"), ["9", "a"]);
}

#[test]
fn idents_are_joined() {
    assert_eq!(token_rows(b"m::alloc"), [[1, 0, 8]]);
    assert_eq!(token_texts("m::i"), ["m", ":", ":", "i"]);
    assert_eq!(token_texts("m::i8"), ["m::i8"]);
    assert_eq!(token_texts("a::c::d"), ["a::c::d"]);
    assert_eq!(token_texts("a::c::i"), ["a::c", ":", ":", "i"]);
    assert_eq!(token_texts("a::T::c"), ["a", ":", ":", "T", ":", ":", "c"]);
    assert_eq!(token_texts("i::a::c"), ["i", ":", ":", "a::c"]);
    assert_eq!(token_texts("Z::a"), ["Z", ":", ":", "a"]);
    assert_eq!(token_texts("_::_"), ["_::_"]);
    assert_eq!(token_texts("a::"), ["a", ":", ":"]);
    assert_eq!(token_texts("a:"), ["a", ":"]);
    assert_eq!(token_texts("a:c"), ["a", ":", "c"]);
    assert_eq!(token_texts("a:::c"), ["a", ":", ":", ":", "c"]);
    assert_eq!(token_texts("a::::c"), ["a", ":", ":", ":", ":", "c"]);
    assert_eq!(token_texts("a::9"), ["a", ":", ":", "9"]);
    assert_eq!(token_texts("::a"), [":", ":", "a"]);
}

#[test]
fn idents_are_not_joined_across_spaces() {
    assert_eq!(token_texts("a :: c"), ["a", ":", ":", "c"]);
    assert_eq!(token_texts("a ::c"), ["a", ":", ":", "c"]);
    assert_eq!(token_texts("a:: c"), ["a", ":", ":", "c"]);
    assert_eq!(token_texts("a: :c"), ["a", ":", ":", "c"]);
    assert_eq!(token_texts("a ::c::d"), ["a", ":", ":", "c::d"]);
    assert_eq!(token_texts("a://\n:c"), ["a", ":", ":", "c"]);
}

/// The scope writes `a::b` as an example of names, but its `b` is a keyword, so
/// by its own rule for words these are four tokens.
#[test]
fn the_keyword_b_does_not_join() {
    assert_eq!(token_texts("a::b"), ["a", ":", ":", "b"]);
    assert_eq!(token_kinds("a::b"), [1, 12, 12, 2]);
    assert_eq!(token_texts("a__b"), ["a__b"]);
}

#[test]
fn ints_take_a_minus_in_front() {
    assert_eq!(token_rows(b"-40"), [[5, 0, 3]]);
    assert_eq!(token_rows(b"5-3"), [[5, 0, 1], [5, 1, 2]]);
    assert_eq!(token_rows(b"- 40"), [[31, 0, 1], [5, 2, 2]]);
    assert_eq!(token_texts("a-5"), ["a", "-5"]);
    assert_eq!(token_texts("--5"), ["-", "-5"]);
    assert_eq!(token_texts("-5-5"), ["-5", "-5"]);
    assert_eq!(token_texts("-a"), ["-", "a"]);
    assert_eq!(token_texts("-.5"), ["-", ".", "5"]);
    assert_eq!(token_texts("+5"), ["+", "5"]);
    assert_eq!(token_texts("007"), ["007"]);
    assert_eq!(token_texts("1_0"), ["1", "_0"]);
    let long = "9".repeat(3_000);
    assert_eq!(token_rows(long.as_bytes()), [[5, 0, 3_000]]);
}

#[test]
fn floats_take_what_is_all_there() {
    for float in [
        "3.14", "1.0e10", "6.022e23", "1.5e-3", "-0.5", "0.0E+0", "-1.5E-07",
    ] {
        assert_eq!(token_kinds(float), [token::FLOAT], "{float}");
    }
    assert_eq!(token_rows(b"3."), [[5, 0, 1], [27, 1, 1]]);
    assert_eq!(token_rows(b"1.0e"), [[6, 0, 3], [1, 3, 1]]);
    assert_eq!(token_texts("1.0e+"), ["1.0", "e", "+"]);
    assert_eq!(token_texts("1.0e-"), ["1.0", "e", "-"]);
    assert_eq!(token_texts("1.0e+-2"), ["1.0", "e", "+", "-2"]);
    assert_eq!(token_texts("1.0ex"), ["1.0", "ex"]);
    assert_eq!(token_texts("1.0e5x"), ["1.0e5", "x"]);
    assert_eq!(token_texts("1.0e5.2"), ["1.0e5", ".", "2"]);
    assert_eq!(token_texts("1e5"), ["1", "e5"]);
    assert_eq!(token_texts("1.2.3"), ["1.2", ".", "3"]);
    assert_eq!(token_texts("1.-5"), ["1", ".", "-5"]);
    assert_eq!(token_texts("1. 5"), ["1", ".", "5"]);
    assert_eq!(token_texts(".5"), [".", "5"]);
    assert_eq!(token_texts("-3."), ["-3", "."]);
    assert_eq!(token_texts("1.0e5e5"), ["1.0e5", "e5"]);
    assert_eq!(token_texts("1.0-2.0"), ["1.0", "-2.0"]);
}

#[test]
fn strings_run_to_the_next_backtick() {
    assert_eq!(token_rows(b"``"), [[7, 0, 2]]);
    assert_eq!(token_rows(b"`a\\`"), [[7, 0, 4]]);
    assert_eq!(token_rows(b"`//`a"), [[7, 0, 4], [1, 4, 1]]);
    assert_eq!(token_rows(b"`\n`"), [[7, 0, 3]]);
    assert_eq!(token_rows(b"`\x00\xff,\xe2`"), [[7, 0, 6]]);
    assert_eq!(token_rows(b"`a``c`"), [[7, 0, 3], [7, 3, 3]]);
    assert_eq!(token_rows(b"//`\n``"), [[7, 4, 2]]);
}

#[test]
fn every_mark_has_its_kind() {
    for (index, mark) in MARKS.iter().enumerate() {
        let expected = [[8 + index as u32, 0, mark.len() as u32]];
        assert_eq!(token_rows(mark.as_bytes()), expected, "{mark}");
    }
}

#[test]
fn the_longest_mark_is_taken() {
    assert_eq!(token_texts("==="), ["==", "="]);
    assert_eq!(token_texts("!=="), ["!=", "="]);
    assert_eq!(token_texts("<<="), ["<<", "="]);
    assert_eq!(token_texts("<=>"), ["<=", ">"]);
    assert_eq!(token_texts(">>>"), [">>", ">"]);
    assert_eq!(token_texts("???"), ["??", "?"]);
    assert_eq!(token_texts("?? ?"), ["??", "?"]);
    assert_eq!(token_texts("=<"), ["=", "<"]);
    assert_eq!(token_texts("!!="), ["!", "!="]);
    assert_eq!(token_rows(b"\xe2\x86\x92"), [[42, 0, 3]]);
    assert_eq!(token_texts("→→a"), ["→", "→", "a"]);
}

#[test]
fn a_byte_that_begins_nothing_is_refused_3() {
    assert_eq!(lexical_refusal(b","), (3, 0));
    assert_eq!(lexical_refusal(b"a ,"), (3, 2));
    assert_eq!(lexical_refusal(b"a\xe2\x86"), (3, 1));
    assert_eq!(lexical_refusal(b"a\xe2"), (3, 1));
    assert_eq!(lexical_refusal(b"\xe2\x86\x93"), (3, 0));
    assert_eq!(lexical_refusal(b"\xe2\x85\x92"), (3, 0));
    assert_eq!(lexical_refusal(b"a\x00"), (3, 1));
    assert_eq!(lexical_refusal(b"'"), (3, 0));
    assert_eq!(lexical_refusal(b"\x0b"), (3, 0));
    assert_eq!(lexical_refusal(b"\x0c"), (3, 0));
    assert_eq!(lexical_refusal("é".as_bytes()), (3, 0));
}

#[test]
fn an_open_string_is_refused_4_at_its_backtick() {
    assert_eq!(lexical_refusal(b"`"), (4, 0));
    assert_eq!(lexical_refusal(b"a `x"), (4, 2));
    assert_eq!(lexical_refusal(b"`a` `"), (4, 4));
    assert_eq!(lexical_refusal(b"`\\"), (4, 0));
}

#[test]
fn of_3_and_4_the_first_met_is_given() {
    assert_eq!(lexical_refusal(b", `"), (3, 0));
    assert_eq!(lexical_refusal(b"` ,"), (4, 0));
    assert_eq!(lexical_refusal(b"a , `x"), (3, 2));
    assert_eq!(lexical_refusal(b"`,` `,"), (4, 4));
}
