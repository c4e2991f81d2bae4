//! The scope's examples from the bench (M1 to M11), its rules 1 to 11, its set
//! N and its levels, with whole rows where they matter.

mod support;
use oracle::answer::Answer;
use oracle::desk::desk_output;
use support::*;

#[test]
fn m1_empty_source() {
    assert_eq!(counts(""), (0, 1));
    assert_eq!(tree(""), [[1, 0, 0, 1]]);
}

#[test]
fn m2_constant() {
    let source = ": i floor -40";
    let tokens = [[12, 0, 1], [2, 2, 1], [1, 4, 5], [5, 10, 3]];
    assert_eq!(token_rows(source.as_bytes()), tokens);
    let rows = [[1, 0, 4, 4], [9, 0, 4, 3], [39, 1, 1, 1], [21, 3, 1, 1]];
    assert_eq!(tree(source), rows);
    let listing = "accepted 4 4\n1 0 4 4\n9 0 4 3\n39 1 1 1\n21 3 1 1\n";
    assert_eq!(desk_output(source.as_bytes()), listing);
}

#[test]
fn m3_constant_with_an_expression() {
    assert_eq!(refusal(": i a - 4"), (6, 3));
    assert_eq!(desk_output(b": i a - 4"), "refused 6 3\n");
}

#[test]
fn m4_slice_literal() {
    assert_eq!(counts("@ g → v { [ i | -40 60 ] }"), (12, 8));
    assert_eq!(counts("@ g → v { [ i | - 40 60 ] }"), (13, 9));
    let rows = [[31, 0, 6, 4], [39, 1, 1, 1], [21, 3, 1, 1], [21, 4, 1, 1]];
    assert_eq!(body("[ i | -40 60 ]"), rows);
    let rows = [
        [31, 0, 7, 5],
        [39, 1, 1, 1],
        [23, 3, 3, 3],
        [21, 4, 1, 1],
        [21, 5, 1, 1],
    ];
    assert_eq!(body("[ i | - 40 60 ]"), rows);
}

#[test]
fn m5_double_question_is_one_token() {
    assert_eq!(refusal("@ g ??i x → v { }"), (6, 2));
    assert_eq!(counts("@ g ? ?i x → v { }"), (10, 8));
}

#[test]
fn m6_to_m8_tokens() {
    assert_eq!(token_rows(b"m::alloc").len(), 1);
    assert_eq!(token_rows(b"m::i").len(), 4);
    assert_eq!(refusal("`"), (4, 0));
    assert_eq!(refusal(","), (3, 0));
}

#[test]
fn m9_let_with_and_without_the_type() {
    let with = [
        [1, 0, 14, 8],
        [7, 0, 4, 1],
        [6, 4, 10, 6],
        [39, 7, 1, 1],
        [14, 8, 6, 4],
        [15, 9, 4, 3],
        [46, 10, 1, 1],
        [21, 12, 1, 1],
    ];
    assert_eq!(tree(": Foo { } @ g → v { : Foo x 1 }"), with);
    let without = [
        [1, 0, 10, 7],
        [6, 0, 10, 6],
        [39, 3, 1, 1],
        [14, 4, 6, 4],
        [15, 5, 3, 2],
        [22, 7, 1, 1],
        [21, 8, 1, 1],
    ];
    assert_eq!(tree("@ g → v { : Foo x 1 }"), without);
}

#[test]
fn m10_tilde_statements() {
    let loops = [
        [1, 0, 10, 7],
        [6, 0, 10, 6],
        [39, 3, 1, 1],
        [14, 4, 6, 4],
        [19, 5, 4, 3],
        [22, 6, 1, 1],
        [14, 7, 2, 1],
    ];
    assert_eq!(tree("@ g → v { ~ x { } }"), loops);
    let foreach = [
        [1, 0, 11, 7],
        [6, 0, 11, 6],
        [39, 3, 1, 1],
        [14, 4, 7, 4],
        [20, 5, 5, 3],
        [22, 7, 1, 1],
        [14, 8, 2, 1],
    ];
    assert_eq!(tree("@ g → v { ~ x y { } }"), foreach);
    let complement = [
        [1, 0, 9, 7],
        [6, 0, 9, 6],
        [39, 3, 1, 1],
        [14, 4, 5, 4],
        [26, 5, 2, 2],
        [22, 6, 1, 1],
        [21, 7, 1, 1],
    ];
    assert_eq!(tree("@ g → v { ~ x 1 }"), complement);
}

#[test]
fn m11_closure_by_rule_7() {
    assert_eq!(refusal("@ g → v { ?? r { X → \\ a B → 1 } }"), (6, 14));
}

#[test]
fn levels() {
    let nots = |n: usize| format!("@ g → v {{ {} 1 }}", "!".repeat(n));
    assert_eq!(counts(&nots(196)), (203, 201));
    assert_eq!(refusal(&nots(197)), (7, 202));
    assert_eq!(refusal(&nots(198)), (7, 202));
}

#[test]
fn levels_of_other_rows() {
    // The program is level 1, the constant 2, the type's stars 3 and on.
    let stars = |n: usize| format!(": {} i x 1", "*".repeat(n));
    assert_eq!(counts(&stars(197)).1, 201);
    assert_eq!(refusal(&stars(198)), (7, 199));
    // A token that cannot begin the row called for is 6, also at level 201.
    let nots = |end: &str| format!("@ g → v {{ {} {end} }}", "!".repeat(197));
    assert_eq!(refusal(&nots(":")), (6, 202));
    assert_eq!(refusal(&nots("i")), (6, 202));
    assert_eq!(refusal(&nots("")), (6, 202));
    assert_eq!(refusal(&nots("( )")), (7, 202));
    // A level 200 block takes its end, and no statement.
    let blocks = |inside: &str| {
        let (open, close) = ("{".repeat(198), "}".repeat(198));
        format!("@ g → v {open} {inside} {close}")
    };
    assert_eq!(counts(&blocks("")).1, 201);
    assert_eq!(refusal(&blocks("x")), (7, 202));
    assert_eq!(refusal(&blocks(": x 1")), (7, 202));
    assert_eq!(refusal(&blocks("→")), (6, 202));
}

#[test]
fn of_6_and_7_the_first_met_is_given() {
    let nots = "!".repeat(197);
    assert_eq!(refusal(&format!("@ g → v {{ ) {nots} 1 }}")), (6, 5));
    assert_eq!(refusal(&format!("@ g → v {{ {nots} 1 ) }}")), (7, 202));
}

#[test]
fn rule_1_types() {
    let rows = [
        [15, 0, 9, 8],
        [40, 1, 6, 6],
        [41, 2, 5, 5],
        [42, 3, 4, 4],
        [43, 4, 3, 3],
        [39, 5, 1, 1],
        [39, 6, 1, 1],
        [22, 8, 1, 1],
    ];
    assert_eq!(body(": * ? [ ! i s x y"), rows);
    for name in ["Foo", "T", "F"] {
        assert_eq!(tree(&format!(": {name} x 1"))[2], [46, 1, 1, 1]);
    }
    assert_eq!(refusal(": Z x 1"), (6, 1));
    let rows = [[44, 1, 5, 3], [39, 3, 1, 1], [46, 4, 1, 1]];
    assert_eq!(body(": ( @ i T ) x y")[1..4], rows);
    assert_eq!(body(": ( Vec i T Foo ) x y")[1], [45, 1, 6, 1]);
    assert_eq!(body_refusal(": ( Vec ) x y"), (6, 3));
    assert_eq!(body_refusal(": ( Vec * i ) x y"), (6, 3));
    assert_eq!(body_refusal(": ( @ ) x y"), (6, 3));
    assert_eq!(body_refusal(": ( i ) x y"), (6, 2));
}

#[test]
fn rule_2_declared_lists() {
    let rows = tree("@ id [T] T x → T { ^ x }");
    assert_eq!(rows[2..4], [[13, 2, 3, 1], [11, 5, 2, 2]]);
    assert_eq!(tree("@ h [ A F C ] → v { }")[2], [13, 2, 5, 1]);
    // Not a list: a slice type where a parameter may stand.
    assert_eq!(tree("@ h [ T x → v { }")[2], [11, 2, 3, 3]);
    assert_eq!(tree("@ h [ A B → v { }")[2], [11, 2, 3, 3]);
    assert_eq!(refusal("@ h [ ] → v { }"), (6, 3));
    assert_eq!(refusal("@ h [ i ] → v { }"), (6, 4));
    assert_eq!(refusal("@ h [ T ] [ U ] → v { }"), (6, 7));
    // Where no type may stand, the bracket itself cannot be taken.
    assert_eq!(refusal(": S [ ] { }"), (6, 2));
    assert_eq!(refusal(": S [ i ] { }"), (6, 2));
    assert_eq!(refusal(": S [ T { }"), (6, 2));
    assert_eq!(refusal(": S [ T ] [ U ] { }"), (6, 5));
    assert_eq!(tree(": S [ T U ] { }")[2], [13, 2, 4, 1]);
}

#[test]
fn rule_2_traits_and_impls() {
    assert_eq!(tree("% S [ T ] { }")[1..], [[4, 0, 7, 2], [13, 2, 3, 1]]);
    let rows = [[5, 0, 6, 3], [42, 2, 2, 2], [46, 3, 1, 1]];
    assert_eq!(tree("% S [ T { }")[1..], rows);
    let rows = [[5, 0, 8, 3], [13, 2, 3, 1], [39, 5, 1, 1]];
    assert_eq!(tree("% S [ T ] i { }")[1..], rows);
    let rows = [[5, 0, 6, 3], [42, 2, 2, 2], [39, 3, 1, 1]];
    assert_eq!(tree("% S [ i { }")[1..], rows);
    assert_eq!(refusal("% S [ i ] { }"), (6, 4));
    assert_eq!(refusal("% S [ ] { }"), (6, 3));
    assert_eq!(refusal("% S"), (6, 2));
}

#[test]
fn rule_2_lists_at_calls() {
    assert_eq!(
        body("( id [i] 42 )"),
        [[33, 0, 7, 3], [13, 2, 3, 1], [21, 5, 1, 1]]
    );
    assert_eq!(body("( id [ i T Foo ] )")[1], [13, 2, 5, 1]);
    assert_eq!(body("( h [ i | 1 ] )")[1], [31, 2, 5, 3]);
    assert_eq!(body_refusal("( h [ ] )"), (6, 3));
    assert_eq!(body_refusal("( h [ i ] [ i ] )"), (6, 7));
    assert_eq!(body_refusal("( h [ * i ] )"), (6, 5));
    assert_eq!(body_refusal("( h x [ i ] )"), (6, 5));
}

#[test]
fn rule_3_lets() {
    assert_eq!(body_after(": | E { }", ": E x 1")[0], [15, 0, 4, 3]);
    assert_eq!(body_after(": E [ T ] { }", ": E x 1")[0], [15, 0, 4, 3]);
    assert_eq!(body(": ~ E x"), [[15, 0, 4, 2], [22, 3, 1, 1]]);
    assert_eq!(body_after(": E { }", ": ~ E x 1")[0], [15, 0, 5, 3]);
    let rows = [[15, 0, 4, 3], [46, 1, 1, 1], [21, 3, 1, 1]];
    assert_eq!(body(": T x 1"), rows);
    assert_eq!(body(": F x 1"), rows);
    assert_eq!(body_refusal(": T 1"), (6, 2));
    assert_eq!(body_refusal(": 1"), (6, 1));
    assert_eq!(body_refusal(": Z x 1"), (6, 1));
    let extra = "@ g → v { : Band x 1 }";
    assert_eq!(tree_with(extra, "Other\nBand")[4], [15, 5, 4, 3]);
    assert_eq!(tree_with(extra, "Other")[4], [15, 5, 3, 2]);
}

#[test]
fn the_set_n_is_taken_over_the_whole_list() {
    // Use before declaration.
    let rows = tree("@ g → v { : Foo x 1 } : Foo { }");
    assert_eq!(rows[4], [15, 5, 4, 3]);
    // `::` is read as `__`, in the list and in the source.
    let source = "@ g → v { : m::Foo x 1 }";
    assert_eq!(tree_with(source, "m__Foo")[4], [15, 5, 4, 3]);
    assert_eq!(tree_with(source, "m::Foo")[4], [15, 5, 4, 3]);
    assert_eq!(tree_with(source, "m_Foo")[4], [15, 5, 3, 2]);
    let rows = tree(": m__Foo { } @ g → v { : m::Foo x 1 }");
    assert_eq!(rows[5], [15, 9, 4, 3]);
}

#[test]
fn the_set_n_counts_only_depth_zero() {
    // Inside the body `: Foo {` is a let of a block, and declares no type.
    let rows = body(": Foo { } : Foo x 1");
    let expected = [
        [15, 0, 4, 2],
        [14, 2, 2, 1],
        [15, 4, 3, 2],
        [22, 6, 1, 1],
        [21, 7, 1, 1],
    ];
    assert_eq!(rows, expected);
    // A `:` `~` before the name declares none either.
    assert_eq!(refusal(": ~ Foo { }"), (6, 3));
}

#[test]
fn rule_4_enums() {
    let rows = [
        [1, 0, 12, 9],
        [8, 0, 12, 8],
        [12, 4, 3, 3],
        [39, 5, 1, 1],
        [39, 6, 1, 1],
        [12, 7, 3, 3],
        [39, 8, 1, 1],
        [39, 9, 1, 1],
        [12, 10, 1, 1],
    ];
    assert_eq!(tree(": | Event { Click i i KeyPress i s Close }"), rows);
    // An IDENT in N is a payload, and cannot name a variant.
    assert_eq!(tree(": | E { A E }")[2..], [[12, 4, 2, 2], [46, 5, 1, 1]]);
    assert_eq!(refusal(": | E { E }"), (6, 4));
    assert_eq!(tree(": | E { A B }")[2..], [[12, 4, 1, 1], [12, 5, 1, 1]]);
    // After a sigil any IDENT is a type.
    let rows = [[12, 4, 3, 3], [40, 5, 2, 2], [46, 6, 1, 1], [12, 7, 1, 1]];
    assert_eq!(tree(": | E { A * B C }")[2..], rows);
    assert_eq!(tree(": | E { A T F }")[2], [12, 4, 3, 3]);
    assert_eq!(tree(": | E { A ( Vec B ) ( @ v ) }")[2], [12, 4, 9, 4]);
    assert_eq!(refusal(": | E { i }"), (6, 4));
    assert_eq!(refusal(": | E { T }"), (6, 4));
    assert_eq!(refusal(": | E { A ?? }"), (6, 5));
}

#[test]
fn rule_5_fields_and_foreign_parameters() {
    assert_eq!(
        tree(": S { i x i y }")[2..4],
        [[11, 3, 2, 2], [39, 3, 1, 1]]
    );
    let rows = tree(": S { A B C i T x }");
    let fields: Vec<[u32; 4]> = rows.into_iter().filter(|row| row[0] == 11).collect();
    let expected = [[11, 3, 2, 2], [11, 5, 1, 2], [11, 6, 1, 2], [11, 7, 2, 2]];
    assert_eq!(fields, expected);
    let rows = [
        [1, 0, 7, 5],
        [3, 0, 7, 4],
        [11, 4, 1, 2],
        [39, 4, 1, 1],
        [39, 6, 1, 1],
    ];
    assert_eq!(tree("& `libm` @ sqrt f → f"), rows);
    let rows = [
        [1, 0, 8, 5],
        [3, 0, 8, 4],
        [11, 4, 2, 2],
        [39, 4, 1, 1],
        [39, 7, 1, 1],
    ];
    assert_eq!(tree("& `libc` @ puts s msg → i"), rows);
    // A function's parameter always has a name.
    assert_eq!(refusal("@ h i → v { }"), (6, 3));
}

#[test]
fn rule_6_tilde() {
    assert_eq!(body("~ { } { }")[0], [19, 0, 5, 3]);
    assert_eq!(body("~ { }")[0], [26, 0, 3, 2]);
    assert_eq!(body("~ + a 1 { }")[0], [19, 0, 6, 5]);
    assert_eq!(body_refusal("~ x y"), (6, 3));
    assert_eq!(body_refusal("~ x y 1"), (6, 3));
    assert_eq!(body_refusal("~ x { ] }"), (6, 3));
    // In an expression it is always a complement.
    let rows = [[15, 0, 4, 3], [26, 2, 2, 2], [22, 3, 1, 1], [14, 4, 2, 1]];
    assert_eq!(body(": a ~ x { }"), rows);
    assert_eq!(body("~ ~ x { }")[0], [19, 0, 5, 4]);
    assert_eq!(body("^ ~ x { }")[0], [25, 0, 3, 3]);
}

#[test]
fn rule_7_closures() {
    for closure in [
        "\\ → v { }",
        "\\ i x → v { }",
        "\\ * A x → v { }",
        "\\ ? A x → v { }",
        "\\ [ A x → v { }",
        "\\ ! A E x → v { }",
        "\\ ( @ v ) x → v { }",
        "\\ A x → v { }",
    ] {
        assert_eq!(body(closure)[0][0], 28, "{closure}");
    }
    for attempt in ["\\ x", "\\ T", "\\ ( h )", "\\ . a c", "\\ \\ x", "\\ { }"] {
        assert_eq!(body(attempt)[0][0], 27, "{attempt}");
    }
    // Two IDENTs and no arrow: a try and another statement.
    assert_eq!(
        body("\\ a c d"),
        [[27, 0, 2, 2], [22, 1, 1, 1], [22, 2, 1, 1], [22, 3, 1, 1]]
    );
    assert_eq!(body_refusal("\\ T x → v { }"), (6, 3));
    assert_eq!(body_refusal("\\ [ i | 1 ]"), (6, 3));
    assert_eq!(body_refusal("\\ A x i y → v { }"), (6, 3));
    assert_eq!(body_refusal("\\ * a c"), (6, 4));
    let rows = [
        [28, 0, 9, 7],
        [11, 1, 2, 2],
        [39, 1, 1, 1],
        [11, 3, 2, 2],
        [46, 3, 1, 1],
        [39, 6, 1, 1],
        [14, 7, 2, 1],
    ];
    assert_eq!(body("\\ i x A y → v { }"), rows);
}

#[test]
fn rule_8_casts() {
    let rows = [
        [35, 0, 5, 5],
        [40, 1, 2, 2],
        [39, 2, 1, 1],
        [22, 3, 1, 1],
        [21, 4, 1, 1],
    ];
    assert_eq!(body("# *u closure 0"), rows);
    assert_eq!(body("# *u closure 1")[0], [35, 0, 5, 5]);
    for other in ["2", "00", "-0", "-1", "1.0", "01"] {
        assert_eq!(body(&format!("# *u closure {other}"))[0], [35, 0, 4, 4]);
    }
    assert_eq!(body("# u closure 0")[0], [35, 0, 3, 3]);
    assert_eq!(body("# ? *u closure 0")[0], [35, 0, 5, 5]);
    assert_eq!(body("# *u # *u x 0 1")[0], [35, 0, 9, 9]);
    // The base takes the INT after any expression.
    assert_eq!(body("( poke # *u ( alloc 16 ) 0 )")[0], [33, 0, 11, 7]);
}

#[test]
fn rule_9_members_and_sets() {
    assert_eq!(body(". p x"), [[34, 0, 3, 3], [22, 1, 1, 1], [22, 2, 1, 1]]);
    assert_eq!(body(". p + a 1")[0], [34, 0, 5, 5]);
    let rows = [[17, 0, 5, 4], [22, 2, 1, 1], [21, 3, 1, 1], [22, 4, 1, 1]];
    assert_eq!(body("= . buf 0 val"), rows);
    assert_eq!(body("= n + n 1")[0], [16, 0, 5, 4]);
    assert_eq!(body_refusal("= 1 2"), (6, 1));
    assert_eq!(body_refusal("= . a c"), (6, 4));
}

#[test]
fn rule_10_arms() {
    let rows = [
        [36, 0, 12, 8],
        [22, 1, 1, 1],
        [37, 3, 5, 4],
        [38, 4, 1, 1],
        [38, 5, 1, 1],
        [21, 7, 1, 1],
        [37, 8, 3, 2],
        [21, 10, 1, 1],
    ];
    assert_eq!(body("?? r { Ok 200 x → 1 _ → 0 }"), rows);
    assert_eq!(body("?? r { T x → x F → 0 }")[0], [36, 0, 11, 7]);
    assert_eq!(body("?? r { A a c d → 1 }")[2], [37, 3, 6, 5]);
    assert_eq!(body_refusal("?? r { A a c d e → 1 }"), (6, 7));
    assert_eq!(body_refusal("?? r { 1 → 1 }"), (6, 3));
    assert_eq!(body_refusal("?? r { A T → 1 }"), (6, 4));
    assert_eq!(body_refusal("?? r { A -1 → 1 B 1.5 → 2 }"), (6, 8));
    assert_eq!(body("?? r { }")[0], [36, 0, 4, 2]);
}

#[test]
fn rule_11_no_mutable_struct() {
    assert_eq!(refusal(": ~ Name {"), (6, 3));
    assert_eq!(refusal(": ~ Name { }"), (6, 3));
    assert_eq!(counts(": ~ Name x 1"), (5, 4));
}

#[test]
fn declarations() {
    assert_eq!(
        tree("$ `a` m $ `c`"),
        [[1, 0, 5, 3], [2, 0, 3, 1], [2, 3, 2, 1]]
    );
    assert_eq!(refusal("$ a"), (6, 1));
    assert_eq!(refusal("$"), (6, 1));
    assert_eq!(refusal("x"), (6, 0));
    assert_eq!(refusal(": i x 1 x"), (6, 4));
    assert_eq!(counts(": ~ b debug_mode F"), (5, 4));
    assert_eq!(refusal(": i x y"), (6, 3));
    assert_eq!(refusal(": i x"), (6, 3));
    let rows = [
        [1, 0, 22, 13],
        [4, 0, 22, 12],
        [13, 2, 3, 1],
        [10, 6, 6, 4],
        [11, 8, 2, 2],
        [46, 8, 1, 1],
        [39, 11, 1, 1],
        [6, 12, 9, 6],
        [11, 14, 2, 2],
        [46, 14, 1, 1],
        [39, 17, 1, 1],
        [14, 18, 3, 2],
        [21, 19, 1, 1],
    ];
    let source = "% S [T] { @ area T obj → i @ show T obj → i { 1 } }";
    assert_eq!(tree(source), rows);
    // An impl's functions have bodies.
    assert_eq!(refusal("% S i { @ h → i }"), (6, 8));
    let rows = tree("% S i { @ h → i { 1 } }");
    assert_eq!(rows[1..4], [[5, 0, 12, 6], [39, 2, 1, 1], [6, 4, 7, 4]]);
}

#[test]
fn expressions() {
    assert_eq!(body("1 1.5 `a` T x").len(), 5);
    for operator in [
        "+", "-", "*", "/", "%", "<", ">", "==", "!=", "<=", ">=", "<<", ">>", "&", "|",
    ] {
        let rows = [[23, 0, 3, 3], [22, 1, 1, 1], [22, 2, 1, 1]];
        assert_eq!(body(&format!("{operator} a c")), rows, "{operator}");
    }
    assert_eq!(body("! a"), [[24, 0, 2, 2], [22, 1, 1, 1]]);
    assert_eq!(body("^ a"), [[25, 0, 2, 2], [22, 1, 1, 1]]);
    assert_eq!(body("Z Point"), [[29, 0, 2, 2], [46, 1, 1, 1]]);
    assert_eq!(body("? a { } c")[0], [32, 0, 5, 4]);
    assert_eq!(body("; { }"), [[18, 0, 3, 2], [14, 1, 2, 1]]);
    assert_eq!(body_refusal("; x"), (6, 1));
    let rows = [
        [30, 0, 7, 5],
        [41, 1, 2, 2],
        [39, 2, 1, 1],
        [21, 4, 1, 1],
        [21, 5, 1, 1],
    ];
    assert_eq!(body("@ ? i { T 42 }"), rows);
    assert_eq!(body_refusal("( 1 )"), (6, 1));
    assert_eq!(body_refusal("( T )"), (6, 1));
    assert_eq!(body_refusal("i"), (6, 0));
    assert_eq!(body_refusal("→"), (6, 0));
    assert_eq!(body_refusal("+ 1"), (6, 2));
}

#[test]
fn the_end_is_the_token_count() {
    assert_eq!(refusal("@"), (6, 1));
    assert_eq!(refusal("@ g → v {"), (6, 5));
    assert_eq!(refusal("@ g → v { ( h"), (6, 7));
    assert_eq!(refusal("@ g → v { [ i |"), (6, 8));
    assert_eq!(refusal("% S {"), (6, 3));
    assert_eq!(refusal(": | E {"), (6, 4));
    assert_eq!(
        answer("@ g → v {}"),
        Answer::Accepted { tokens: 6, rows: 4 }
    );
}
