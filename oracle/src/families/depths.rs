//! Cases of nesting around the level limit.

use crate::answer::{read, Answer};
use crate::cases::{Case, LONGEST_TOKEN_TABLE, LONGEST_TREE_TABLE};
use crate::generate::vocabulary::EACH_KIND;
use crate::settings::BASE;
use crate::tokens::scan;

/// Something that holds itself: the text before and after the inner one.
struct Nest {
    /// What stands before the first level.
    head: String,
    open: &'static str,
    /// What stands inside the innermost level.
    core: &'static str,
    close: &'static str,
    /// What stands after the last level.
    tail: &'static str,
}

impl Nest {
    fn source(&self, times: usize) -> String {
        let open = format!("{} ", self.open).repeat(times);
        let close = format!("{} ", self.close).repeat(times);
        format!("{} {open}{} {close}{}", self.head, self.core, self.tail)
    }

    /// The largest number of times that is accepted.
    fn most(&self) -> usize {
        let mut times = 1;
        while matches!(answer(&self.source(times)), Answer::Accepted { .. }) {
            times += 1;
        }
        times - 1
    }

    /// The last that is accepted, the next, the next but one, and the next
    /// with another token where 7 is answered.
    fn cases(&self) -> Vec<Case> {
        let most = self.most();
        assert!(most > 0, "{}", self.source(1));
        let mut cases: Vec<Case> = (most..most + 3)
            .map(|times| Case::new(self.source(times)))
            .collect();
        let next = self.source(most + 1);
        match answer(&next) {
            Answer::Refused { number: 7, place } => {
                cases.push(Case::new(with_token(&next, place as usize, "$")));
            }
            other => panic!("{next}: {other:?}"),
        }
        cases
    }
}

/// The answer with the largest tables of a case.
fn answer(source: &str) -> Answer {
    let mut tokens = vec![0; LONGEST_TOKEN_TABLE];
    let mut tree = vec![0; LONGEST_TREE_TABLE];
    read(source.as_bytes(), b"", &mut tokens, &mut tree)
}

/// The source with this text in the place of a token.
fn with_token(source: &str, place: usize, text: &str) -> String {
    let tokens = scan(source.as_bytes(), BASE.edition).expect("no fault");
    let token = tokens[place];
    let (before, after) = (
        &source[..token.start],
        &source[token.start + token.length..],
    );
    format!("{before}{text}{after}")
}

/// A function's body that begins with so many `!`.
fn body(marks: usize) -> String {
    format!("@ g → v {{ {}", "!".repeat(marks))
}

/// Types nested in each operator and in both kinds of parentheses, and nested
/// at each place where a declaration calls for a type.
pub fn types() -> Vec<Case> {
    let mut cases = Vec::new();
    for (open, close) in TYPES {
        let stars = if open.len() < 2 { 0 } else { 170 };
        let deep = Nest {
            head: format!(": {}", "*".repeat(stars)),
            open,
            core: "i",
            close,
            tail: "x 1",
        };
        cases.extend(deep.cases());
    }
    for (head, tail) in TYPE_PLACES {
        let deep = Nest {
            head: format!("{head} {}", "*".repeat(170)),
            open: "?",
            core: "( Vec i )",
            close: "",
            tail,
        };
        cases.extend(deep.cases());
    }
    cases
}

/// Expressions nested in each form, first and last operand.
pub fn expressions() -> Vec<Case> {
    let mut cases = Vec::new();
    for (open, close) in EXPRESSIONS {
        let deep = Nest {
            head: body(if open.len() < 2 { 0 } else { 176 }),
            open,
            core: "1",
            close,
            tail: "}",
        };
        cases.extend(deep.cases());
    }
    for open in [
        "+", "-", "*", "/", "%", "<", ">", "==", "!=", "<=", ">=", "<<", ">>", "&", "|",
    ] {
        let deep = Nest {
            head: body(193),
            open,
            core: "x",
            close: "1",
            tail: "}",
        };
        cases.extend(deep.cases());
    }
    cases
}

/// Statements nested in blocks.
pub fn statements() -> Vec<Case> {
    let mut cases = Vec::new();
    for (open, close) in STATEMENTS {
        let deep = Nest {
            head: format!("{} {{", body(170)),
            open,
            core: "x",
            close,
            tail: "} }",
        };
        cases.extend(deep.cases());
    }
    cases
}

const TYPES: [(&str, &str); 8] = [
    ("*", ""),
    ("?", ""),
    ("[", ""),
    ("! i", ""),
    ("!", "i"),
    ("( @", ")"),
    ("( @ i", ")"),
    ("( @ ! * i", ")"),
];

const TYPE_PLACES: [(&str, &str); 5] = [
    ("& `l` @ h", "→ v"),
    (": S {", "x }"),
    (": | E { A", "}"),
    ("% S", "{ }"),
    ("@ h", "x → v { }"),
];

const EXPRESSIONS: [(&str, &str); 22] = [
    ("!", ""),
    ("\\", ""),
    ("^", ""),
    ("~", ""),
    ("{", "}"),
    ("\\ .", "x"),
    ("\\ → v {", "}"),
    ("\\ i x → v {", "}"),
    ("@ A {", "}"),
    ("@ A { 1", "2 }"),
    ("[ i |", "]"),
    ("? 1 2", ""),
    ("?", "1 2"),
    ("( h", ")"),
    ("( h [ i ] 1", "2 )"),
    (". x", ""),
    (".", "x"),
    ("# i", ""),
    ("# * i", "0"),
    ("?? x { A →", "}"),
    ("?? x { T → 1 A y →", "}"),
    ("??", "{ }"),
];

const STATEMENTS: [(&str, &str); 10] = [
    (": x {", "}"),
    (": ~ i x {", "}"),
    ("= x {", "}"),
    ("= . x y {", "}"),
    ("= . {", "} 1 2"),
    ("; {", "}"),
    ("~ x {", "}"),
    ("~ {", "} { }"),
    ("~ x y {", "}"),
    ("1 ^ {", "} 2"),
];

/// A token of each kind where an expression, and where a type, is called for
/// at level 201; and rows of other kinds called for around the level limit.
pub fn at_the_limit() -> Vec<Case> {
    let mut cases = Vec::new();
    for text in EACH_KIND {
        cases.push(Case::new(format!("{} {text} }}", body(197))));
        cases.push(Case::new(format!(": {} {text}", "*".repeat(198))));
    }
    for inside in AT_THE_LIMIT {
        for marks in [195, 196] {
            cases.push(Case::new(format!("{} {inside} }}", body(marks))));
        }
    }
    cases
}

const AT_THE_LIMIT: &[&str] = &[
    "( h [ i ] )",
    "( h [ i | ] )",
    "( h [ i",
    "\\ i x → v { }",
    "\\ → v { }",
    "\\ → v x",
    "\\ A x → v { }",
    "?? x { A → 1 }",
    "?? x { A y → 1 }",
    "?? x { A 1 }",
    "?? x { 1 }",
    "?? x { }",
    "# * i x 0",
    "# i x",
    "Z ( Vec i )",
    "Z ( @ i )",
    "@ A { 1 }",
    "@ A { }",
    "[ A | x ]",
    "[ A | ]",
    "{ : x 1 }",
    "{ : i x 1 }",
    "{ = x 1 }",
    "{ = . x 1 2 }",
    "{ ; { } }",
    "{ ; x }",
    "{ ~ x { } }",
    "{ ~ x y { } }",
    "{ ~ x }",
    "{ → }",
    "{ i }",
];
