//! Cases that are written in the documents: the scope's and the readings'
//! examples of bytes to tokens.

use crate::cases::Case;

/// The examples of the scope.
pub fn of_the_scope() -> Vec<Case> {
    let sources = [
        "",
        ": i floor -40",
        ": i a - 4",
        "@ g → v { [ i | -40 60 ] }",
        "@ g → v { [ i | - 40 60 ] }",
        "[ i | -40 60 ]",
        "@ g ??i x → v { }",
        "m::alloc",
        "m::i",
        "`",
        ",",
        ": Foo x 1",
        ": Foo { }",
        "~ x { }",
        "~ x y { }",
        "~ x 1",
        "@ g → v { ?? r { X → \\ a B → 1 } }",
        "a::b",
        "a__b",
        "a :: b",
        "3.",
        "1.0e",
        "-40",
        "5-3",
        "* ? [ ! i s",
        ": ~ Name {",
        "i u f b s v T F Z",
        "$ & @ % : | = ; ~ { } ( ) [ ] ! ^ \\ ? . # * + - / < > == != <= >= << >> ?? →",
    ];
    let mut cases: Vec<Case> = sources.iter().map(Case::new).collect();
    for count in [196, 197] {
        cases.push(Case::new(format!("@ g → v {{ {} 1 }}", "!".repeat(count))));
    }
    cases.push(Case::new("a a a ,").token_table(3));
    cases
}

/// The examples of the readings page.
pub fn of_the_readings() -> Vec<Case> {
    let sources = [
        "m::int",
        "m::i2",
        "m::_",
        "m::T",
        "m::Z",
        "a::xx::i",
        "a:::xx",
        "a::_x a_::x a___x",
        "a-3",
        "--3",
        "-.5",
        "1.0e+x",
        "1.0e-",
        "1e5",
        "1.e5",
        "a//c\rd\ne",
        "` , // ",
        "@ add i a i b → i { }",
        ": ( T i ) x 1",
        ": Foo [ i ] { }",
        "\\ ( Vec x ) y",
        "\\ [ i | 1 ]",
        "@ g → v { : Foo x ~ a c } } : Foo { }",
    ];
    let mut cases: Vec<Case> = sources.iter().map(Case::new).collect();
    for front in ["i", "u", "f", "b", "s", "v", "T", "F", "Z"] {
        cases.push(Case::new(format!("{front}::xx")));
    }
    cases.push(Case::new("a").names("a::xx\n_"));
    cases.push(Case::new("a").names("\n"));
    cases.push(Case::new("a a a a a").token_table(6));
    cases
}

/// Wraps statements into a function.
fn body(statements: &str) -> String {
    format!("@ g → v {{ {statements} }}")
}

/// A function whose body is so many `!` and then this text.
fn marks_and(count: usize, rest: &str) -> String {
    body(&format!("{} {rest}", "!".repeat(count)))
}

/// The bench examples M1 to M11 and the other inputs of the scope, as whole
/// readings.
pub fn readings_of_01() -> Vec<Case> {
    let mut cases: Vec<Case> = WHOLE_01.iter().map(Case::new).collect();
    for inside in BODIES_01 {
        cases.push(Case::new(body(inside)));
        cases.push(Case::new(format!(": Foo {{ }} {}", body(inside))));
        cases.push(Case::with_names(body(inside), "Foo"));
    }
    for count in [195, 196, 197, 198] {
        cases.push(Case::new(marks_and(count, "1")));
    }
    cases.push(Case::new("; ".repeat(5)).token_table(14));
    cases.push(Case::new("a a a ,").token_table(3));
    cases
}

/// Every input of the readings page that is about the base rules.
pub fn readings_of_03() -> Vec<Case> {
    let mut cases: Vec<Case> = WHOLE_03.iter().map(Case::new).collect();
    for inside in BODIES_03 {
        cases.push(Case::new(body(inside)));
        cases.push(Case::new(format!(": A {{ }} {} : Foo [", body(inside))));
    }
    for listed in ["a::_x", "a_::x", "a___x", "a__x"] {
        for used in ["a::_x", "a_::x", "a___x"] {
            let source = body(&format!(": {used} y 1"));
            cases.push(Case::with_names(source, listed));
        }
    }
    for rest in AT_LEVEL_201 {
        cases.push(Case::new(marks_and(197, rest)));
    }
    for rest in AT_LEVEL_200 {
        cases.push(Case::new(marks_and(196, rest)));
    }
    cases.push(Case::new("").token_table(0).tree_table(3));
    cases.push(Case::new("").token_table(0).tree_table(4));
    cases
}

const WHOLE_01: &[&str] = &[
    "",
    ": i floor -40",
    ": i a - 4",
    "@ g → v { [ i | -40 60 ] }",
    "@ g → v { [ i | - 40 60 ] }",
    "@ g ??i x → v { }",
    "@ g ? ?i x → v { }",
    "m::alloc",
    "m::i",
    "@ m::alloc → v { ( m::alloc 16 ) }",
    "@ m::i → v { }",
    "`",
    ",",
    "@ g → v { ?? r { X → \\ a B → 1 } }",
    "@ g * ? [ ! i s x → * ? [ ! i s { }",
    ": ~ Name { }",
    ": ~ Name {",
    ": ~ Name x 1",
    "@ g [ A B C ] A x → v { }",
    "% S [ T F K ] ( Pair T F K ) { }",
    ": S [ A B C D E ] { A x }",
    "@ a::xx → v { : a__xx 1 }",
    ": a::xx { } @ g → v { : a__xx x 1 }",
    "@ g → v { : Foo x 1 } : Foo { }",
    "@ g → v { : Foo x 1 } : | Foo { }",
    "@ g → v { : Foo x 1 } : Foo [ T ] { }",
];

const BODIES_01: &[&str] = &[
    "[ i | -40 60 ]",
    ": Foo x 1",
    ": Foo x",
    ": ~ Foo x 1",
    ": T x 1",
    ": F x 1",
    "~ x { }",
    "~ x y { }",
    "~ x 1",
    "~ x",
    "5-3",
    "a :: c",
    "- 5 -3",
    "# * u closure 0",
    "# * u closure 1",
    "# * u closure 2",
    "# u closure 0",
    ". p 0",
    "= . p x 1",
    "?? r { _ → 0 A x 1 y → 2 T → 3 }",
    "?? r { A x 1 y z → 2 }",
    "( id [ i T Foo ] 42 )",
    "( id [ i | 42 ] )",
];

const WHOLE_03: &[&str] = &[
    "@ add i a i b → i { }",
    "@ add i a i c → i { }",
    ": ( T i ) x 1",
    ": ( A T i ) x 1",
    ": Foo [ i ] { }",
    ": Foo [ A ] { }",
    ": Foo [",
    ": Foo [ ] { }",
    ": ~ Foo { }",
    "@ h [ i ] { }",
    "@ h [ A ] |",
    "@ h [ A ] → v { }",
    "% Foo [ i ] { }",
    "% Foo [ A ] { }",
    ": Foo [ A ] x 1",
    "& `l` @ h [ A ] → v",
    "& `l` @ h [ A x → v",
    ": | E { E i }",
    ": | E { X E Y }",
    ": | E { X * A Y ? B2 Z1 ! A B2 }",
    ": | E { X [ A Y ( Vec A ) W ( @ A ) }",
    ": | E { X T F i Y }",
    "@ g → v { : Foo x } : Foo [",
    "@ g → v { : Foo x } : ~ Foo {",
    "@ g → v { : Foo x } ) : | Foo",
    "@ g → v { : Foo x } : T {",
    "@ g → v { : Foo x ~ a c } } : Foo { }",
    "@ g → v { : Foo x ~ a c }",
    "@ g → v { : Foo { } : Foo x 1 }",
    "@ g → v { : | Foo { } : Foo x 1 }",
    "} : Foo { } @ g → v { : Foo x 1 }",
    "% S { @ h → v @ k → v { } }",
    "% S i { @ h → v { } }",
    "& `l` @ h → v",
    "@ g → v { 1 // }",
    ": i x ",
    "ab\u{2190}",
];

const BODIES_03: &[&str] = &[
    "\\ T x",
    "\\ ( Vec x ) y",
    "\\ A x B2 y",
    "\\ A x → v { }",
    "\\ A x A y → v { }",
    "\\ ! x",
    "\\ [ i | 1 ]",
    "\\ [ A ] → v { }",
    ": Foo 1",
    ": Foo x 1",
    ": ~ Foo x 1",
    ": ~ Foo x",
    ": ( T i ) x 1",
    "( h [ * i ] )",
    "( h [ i ] | 1 2 )",
    "~ { } { }",
    "~ { }",
    "! ~ x { }",
    "~ x y + 1 2",
    "~ x y z { }",
    "~ x y { }",
    "~ x { }",
    "# * ? u x 0",
    "# ? * u x 0",
    "# * u x 00",
    "# * u x -0",
    "# * u # * u x 0",
    "# * u # i x 0",
    "# * u # * u x 0 1",
    "?? r { _ a 1 → 2 }",
    "?? r { A a c d 4 → 2 }",
    "?? r { A a c d → 2 }",
    ": x { 1 }",
    "@ A { 1 }",
    "?? x { A → 1 }",
    "a::_x a_::x a___x",
];

/// Where an expression at level 201 is called for.
const AT_LEVEL_201: &[&str] = &["(", "( )", "[", "[ ]", "[ i ]", "\\ →", ""];

/// Where an expression at level 200 is called for, and more below it.
const AT_LEVEL_200: &[&str] = &[
    "Z (",
    "Z [",
    "Z i",
    "Z",
    "Z 1",
    "Z ??",
    "Z Z",
    "Z @",
    "( h )",
    "{ }",
    "( h [ i ] )",
    "( h [ * ] )",
    "\\ i x → v { }",
    "?? x { A a → 1 }",
    "x",
];
