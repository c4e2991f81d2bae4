//! The open points decided in the readings page: every line of it that is about
//! the base rules and carries an input, in its order.

mod support;
use oracle::answer::{read, Answer};
use oracle::desk::desk_output;
use oracle::names::check_names;
use support::*;

// Bytes to tokens.

#[test]
fn words_are_taken_whole_and_then_classified() {
    for joined in ["m::int", "m::i2", "m::_"] {
        assert_eq!(token_texts(joined), [joined]);
    }
    for (source, last) in [("m::i", "i"), ("m::T", "T"), ("m::Z", "Z")] {
        assert_eq!(token_texts(source), ["m", ":", ":", last]);
    }
    assert_eq!(token_texts("a::xx::i"), ["a::xx", ":", ":", "i"]);
    for front in ["i", "u", "f", "b", "s", "v", "T", "F", "Z"] {
        let source = format!("{front}::xx");
        assert_eq!(token_texts(&source), [front, ":", ":", "xx"]);
    }
    assert_eq!(token_texts("a:::xx"), ["a", ":", ":", ":", "xx"]);
    assert_eq!(token_kinds("a::b"), [1, 12, 12, 2]);
}

#[test]
fn names_compare_after_plain_replacement() {
    for listed in ["a::_x", "a_::x", "a___x"] {
        for used in ["a::_x", "a_::x", "a___x"] {
            let rows = tree_with(&format!("@ g → v {{ : {used} y 1 }}"), listed);
            assert_eq!(rows[4], [15, 5, 4, 3], "{listed} {used}");
        }
    }
}

#[test]
fn minus_is_taken_into_a_number() {
    assert_eq!(token_texts("5-3"), ["5", "-3"]);
    assert_eq!(token_texts("a-3"), ["a", "-3"]);
    assert_eq!(token_texts("--3"), ["-", "-3"]);
    assert_eq!(token_texts("-.5"), ["-", ".", "5"]);
}

#[test]
fn floats_end_before_an_incomplete_exponent() {
    assert_eq!(token_texts("1.0e+x"), ["1.0", "e", "+", "x"]);
    assert_eq!(token_texts("1.0e-"), ["1.0", "e", "-"]);
    assert_eq!(token_texts("1e5"), ["1", "e5"]);
    assert_eq!(token_kinds("1e5"), [5, 1]);
    assert_eq!(token_texts("1.e5"), ["1", ".", "e5"]);
}

#[test]
fn comments_are_ended_by_byte_10_alone() {
    assert_eq!(token_rows(b"a//c\rd\ne"), [[1, 0, 1], [1, 7, 1]]);
    let mut all: Vec<u8> = (0..=255).filter(|byte| *byte != 10).collect();
    all.splice(0..0, *b"//");
    assert!(token_rows(&all).is_empty());
    let mut all: Vec<u8> = (0..=255).filter(|byte| *byte != b'`').collect();
    all.insert(0, b'`');
    all.push(b'`');
    assert_eq!(token_rows(&all), [[7, 0, 257]]);
    assert_eq!(lexical_refusal(b"a ` , \xff \xe2"), (4, 2));
}

#[test]
fn a_broken_arrow_and_keywords_as_names() {
    assert_eq!(lexical_refusal(b"ab\xe2\x86x"), (3, 2));
    assert_eq!(refusal("@ add i a i b → i { }"), (6, 5));
}

// Name list.

#[test]
fn entries_are_exactly_one_ident() {
    assert_eq!(check_names(b"a::xx\n_"), None);
    for bad in ["a ", " a", "a\r", "a//", "//a", "a\t"] {
        assert_eq!(check_names(bad.as_bytes()), Some(0), "{bad:?}");
    }
    assert_eq!(check_names(b"\n"), Some(0));
    let mut list = b"a\n".repeat(9_000);
    assert_eq!(check_names(&list), Some(0));
    list.truncate(16_384);
    assert_eq!(check_names(&list), Some(16_384));
    list.truncate(16_383);
    assert_eq!(check_names(&list), None);
}

// N.

#[test]
fn only_neighbouring_tokens_at_depth_zero_count() {
    // Both forms inside braces add nothing.
    let rows = tree("@ g → v { : Foo { } : Foo x 1 }");
    assert_eq!(rows[6], [15, 9, 3, 2]);
    assert_eq!(refusal("@ g → v { : | Foo { } : Foo x 1 }"), (6, 6));
    // `: Foo [` counts without a list after it: the let takes `x` as its name
    // and `1` as its value, and the fault is the later `[`.
    assert_eq!(refusal("@ g → v { : Foo x 1 } : Foo ["), (6, 12));
    // Without Foo in N this let has no value, so the place is another one.
    assert_eq!(refusal("@ g → v { : Foo x } : Foo ["), (6, 8));
    assert_eq!(counts("@ g → v { : Foo x }"), (9, 6));
    // Tokens after the place of a refusal count too.
    assert_eq!(refusal("@ g → v { : Foo x } ) : | Foo"), (6, 8));
    // `: ~ Foo {` adds nothing.
    assert_eq!(refusal("@ g → v { : Foo x } : ~ Foo {"), (6, 12));
    // Only IDENT tokens are ever in N.
    assert_eq!(refusal("@ g → v { : Foo x } : T {"), (6, 11));
}

// Grammar.

#[test]
fn the_head_of_an_instance_is_an_ident() {
    assert_eq!(refusal(": ( T i ) x 1"), (6, 2));
    assert_eq!(body_refusal(": ( T i ) x 1"), (6, 2));
}

#[test]
fn brackets_that_open_no_list() {
    assert_eq!(refusal(": Foo [ i ] { }"), (6, 2));
    // Elsewhere the place comes later.
    assert_eq!(refusal("@ h [ i ] { }"), (6, 4));
    assert_eq!(refusal("% Foo [ i ] { }"), (6, 4));
    assert_eq!(body_refusal("( h [ * i ] )"), (6, 5));
    // Where words do run up to `]` it is a list, whatever follows.
    assert_eq!(refusal("@ h [ A ] | "), (6, 5));
    assert_eq!(refusal(": Foo [ A ] x 1"), (6, 5));
    assert_eq!(body("( h [ i ] | 1 2 )")[1], [13, 2, 3, 1]);
    // Foreign declarations and closures have no list.
    assert_eq!(refusal("& `l` @ h [ A ] → v"), (6, 6));
    assert_eq!(body_refusal("\\ [ A ] → v { }"), (6, 3));
}

#[test]
fn a_lets_leading_ident() {
    assert_eq!(body_after(": Foo { }", ": ~ Foo x 1")[0], [15, 0, 5, 3]);
    assert_eq!(body(": ~ Foo x")[0], [15, 0, 4, 2]);
    // In N and not followed by an IDENT: refused there.
    assert_eq!(refusal(": Foo { } @ g → v { : Foo 1 }"), (6, 11));
    assert_eq!(refusal(": Foo { } @ g → v { : ~ Foo { } }"), (6, 12));
}

#[test]
fn sigils_begin_payloads() {
    for payload in ["* A", "? A", "[ A", "! A B", "( Vec A )", "( @ A )"] {
        let rows = tree(&format!(": | E {{ X {payload} Y }}"));
        let kinds: Vec<u32> = rows.iter().map(|row| row[0]).collect();
        let variants = kinds.iter().filter(|kind| **kind == 12).count();
        assert_eq!(variants, 2, "{payload}");
    }
    assert_eq!(refusal(": | E { E i }"), (6, 4));
}

#[test]
fn tilde_at_a_statement_and_in_an_expression() {
    assert_eq!(body_refusal("~ x y + 1 2"), (6, 3));
    assert_eq!(body_refusal("~ x y z { }"), (6, 3));
    assert_eq!(body("! ~ x { }")[0], [24, 0, 3, 3]);
    assert_eq!(body("~ { } { }")[0][0], 19);
    assert_eq!(body("~ { }")[0][0], 26);
}

#[test]
fn rule_7_asks_the_tokens_only() {
    let kinds = |source: &str| -> Vec<u32> { body(source).iter().map(|row| row[0]).collect() };
    assert_eq!(kinds("\\ T x"), [27, 21, 22]);
    assert_eq!(kinds("\\ ( Vec x ) y"), [27, 33, 22, 22]);
    assert_eq!(kinds("\\ A x B y"), [27, 22, 22, 22, 22]);
    let rows = body_after(": A { } : B { }", "\\ A x B y");
    assert_eq!(rows[0], [27, 0, 2, 2]);
    assert_eq!(body_refusal("\\ ! x"), (6, 3));
    assert_eq!(body_refusal("\\ [ i | 1 ]"), (6, 3));
}

#[test]
fn casts_to_a_pointer_take_the_int() {
    assert_eq!(body("# * ? u x 0")[0], [35, 0, 6, 6]);
    assert_eq!(body("# ? * u x 0")[0], [35, 0, 5, 5]);
    for other in ["00", "01", "-0", "-1", "10"] {
        assert_eq!(body(&format!("# * u x {other}"))[0], [35, 0, 4, 4]);
    }
    // The innermost cast takes it first.
    let rows = body("# * u # * u x 0");
    assert_eq!(rows[0], [35, 0, 8, 8]);
    assert_eq!(rows[3], [35, 3, 5, 5]);
    let rows = body("# * u # i x 0");
    assert_eq!(rows[0], [35, 0, 7, 7]);
    assert_eq!(rows[3], [35, 3, 3, 3]);
}

#[test]
fn arms_and_payloads() {
    assert_eq!(body("?? r { _ a 1 → 2 }")[2], [37, 3, 5, 4]);
    assert_eq!(body_refusal("?? r { A a c d 4 → 2 }"), (6, 7));
    assert_eq!(body("?? r { A a → 2 }")[3], [38, 4, 1, 1]);
}

#[test]
fn rows_of_headers_blocks_and_braces() {
    let kinds = |source: &str| -> Vec<u32> { tree(source).iter().map(|row| row[0]).collect() };
    assert_eq!(
        kinds("% S { @ h → v @ k → v { } }"),
        [1, 4, 10, 39, 6, 39, 14]
    );
    assert_eq!(kinds("% S i { @ h → v { } }"), [1, 5, 39, 6, 39, 14]);
    assert_eq!(kinds("& `l` @ h → v"), [1, 3, 39]);
    let inside = |source: &str| -> Vec<u32> { body(source).iter().map(|row| row[0]).collect() };
    assert_eq!(inside(": x { 1 }"), [15, 14, 21]);
    assert_eq!(inside("@ A { 1 }"), [30, 46, 21]);
    assert_eq!(inside("?? x { A → 1 }"), [36, 22, 37, 21]);
    assert_eq!(inside("1"), [21]);
}

#[test]
fn the_place_at_the_end() {
    assert_eq!(refusal("@ g → v { 1 // }"), (6, 6));
    assert_eq!(refusal(": i x "), (6, 3));
}

// Levels and answer 7.

/// A body whose statement stands at level 4, `depth` prefix marks in front.
fn deep(depth: usize, rest: &str) -> (u32, u32) {
    refusal(&format!("@ g → v {{ {} {rest} }}", "!".repeat(depth)))
}

#[test]
fn can_begin_asks_one_token() {
    // The expression after 197 marks would be at level 201.
    for rest in ["(", "( )", "[", "[ ]", "[ i ] ", "\\ →", "?? }"] {
        assert_eq!(deep(197, rest), (7, 202), "{rest}");
    }
    for rest in ["", "i", ")", "]", "→", ":", "=", ";", "$"] {
        assert_eq!(deep(197, rest), (6, 202), "{rest}");
    }
    // A sizeof at level 200 calls for a type at level 201.
    for rest in ["Z (", "Z [", "Z i", "Z T", "Z !"] {
        assert_eq!(deep(196, rest), (7, 202), "{rest}");
    }
    for rest in ["Z", "Z 1", "Z ??", "Z Z", "Z @"] {
        assert_eq!(deep(196, rest), (6, 202), "{rest}");
    }
}

#[test]
fn optional_rows_count_only_when_begun() {
    let accepted = |rest: &str| {
        let source = format!("@ g → v {{ {} {rest} }}", "!".repeat(196));
        matches!(answer(&source), Answer::Accepted { .. })
    };
    assert!(accepted("( h )"));
    assert!(accepted("{ }"));
    // A bracketed list, a parameter, an arm and a payload are rows.
    assert_eq!(deep(196, "( h [ i ] )"), (7, 203));
    assert_eq!(deep(196, "\\ i x → v { }"), (7, 202));
    assert_eq!(deep(195, "?? x { A → 1 }"), (7, 205));
    assert_eq!(deep(195, "?? x { A a → 1 }"), (7, 204));
    assert_eq!(deep(196, "?? x { A a → 1 }"), (7, 202));
    // Names, callees and words are not.
    assert!(accepted("( h )"));
    let words = format!(": {} ( Vec A B ) x 1", "*".repeat(197));
    assert_eq!(counts(&words).1, 201);
}

// Tables and the desk.

#[test]
fn every_whole_row_is_zero_on_6_7_8() {
    let deep = format!("@ g → v {{ {} 1 }}", "!".repeat(197));
    for (source, number) in [(";", 6), (deep.as_str(), 7)] {
        let mut tokens = pattern(900);
        let mut rows = pattern(43);
        let answer = read(source.as_bytes(), b"", &mut tokens, &mut rows);
        assert!(matches!(answer, Answer::Refused { number: n, .. } if n == number));
        assert!(rows[..40].iter().all(|value| *value == 0));
        assert_eq!(rows[40..], pattern(43)[40..]);
    }
    let mut rows = pattern(15);
    let answer = read(b": i x 1", b"", &mut pattern(12), &mut rows);
    assert_eq!(
        answer,
        Answer::Refused {
            number: 8,
            place: 4
        }
    );
    assert_eq!(rows[..12], [0; 12]);
    assert_eq!(rows[12..], pattern(15)[12..]);
}

#[test]
fn places_of_5_and_8_and_the_desk_lines() {
    let answer = read(b"a a a a a", b"", &mut pattern(6), &mut pattern(8));
    assert_eq!(
        answer,
        Answer::Refused {
            number: 5,
            place: 5
        }
    );
    let answer = read(b"", b"", &mut [], &mut []);
    assert_eq!(
        answer,
        Answer::Refused {
            number: 8,
            place: 1
        }
    );
    assert_eq!(desk_output(b": i x 1").lines().count(), 5);
    assert!(desk_output(b": i x 1").ends_with("21 3 1 1\n"));
    assert_eq!(desk_output(&[b'a'; 65_536]), "refused 1 0\n");
}

// Found while trying the rules.

#[test]
fn a_tilde_statement_is_never_an_expression_statement() {
    let kinds: Vec<u32> = body("~ x { }").iter().map(|row| row[0]).collect();
    assert_eq!(kinds, [19, 22, 14]);
}

#[test]
fn an_enum_payload_is_its_types_row() {
    let kinds: Vec<u32> = tree(": | E { A i }").iter().map(|row| row[0]).collect();
    assert_eq!(kinds, [1, 8, 12, 39]);
}

#[test]
fn names_declared_after_the_place_still_count() {
    assert_eq!(refusal("@ g → v { : Foo x ~ a c } } : Foo { }"), (6, 12));
    assert_eq!(refusal("@ g → v { : Foo x ~ a c }"), (6, 11));
}
