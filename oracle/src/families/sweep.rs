//! Systematic cases: a token of each kind at each place where something is
//! decided.

use crate::cases::{Case, Needed};
use crate::generate::vocabulary::EACH_KIND;

/// A case with exactly room in both tables.
fn exactly(source: &str) -> Case {
    let needed = Needed::of(source.as_bytes(), b"");
    let case = Case::new(source).token_table(needed.token_length());
    case.tree_table(needed.tree_length())
}

/// Each prefix alone and with a token of each kind after it.
pub fn after_prefixes() -> Vec<Case> {
    let declarations = DECLARATIONS.iter().map(|prefix| prefix.to_string());
    let bodies = BODIES.iter().map(|prefix| format!("@ g → v {{ {prefix}"));
    let mut cases = Vec::new();
    for prefix in declarations.chain(bodies) {
        cases.push(exactly(&prefix));
        for text in EACH_KIND {
            cases.push(exactly(&format!("{prefix} {text}")));
        }
    }
    cases
}

/// Small programs in which each token in turn is replaced by each kind.
pub fn in_programs() -> Vec<Case> {
    let mut cases = Vec::new();
    for program in PROGRAMS {
        let words: Vec<&str> = program.split(' ').collect();
        for place in 0..words.len() {
            for text in EACH_KIND {
                let mut changed = words.clone();
                changed[place] = text;
                cases.push(exactly(&changed.join(" ")));
            }
        }
    }
    cases
}

const PROGRAMS: [&str; 5] = [
    ": E { i y T } : ~ i x 1",
    "@ g [ A ] * i x → v { }",
    "@ g → v { : i x ( y 1 ) }",
    "@ g → v { ?? x { A y → \\ 1 } }",
    "% S i { @ g → v { } }",
];

/// The begins of declarations and types.
const DECLARATIONS: &[&str] = &[
    "",
    "$",
    "$ `s`",
    "$ `s` x",
    "&",
    "& `s`",
    "& `s` @",
    "& `s` @ x",
    "& `s` @ x i",
    "& `s` @ x i y",
    "& `s` @ x →",
    "%",
    "% x",
    "% x [",
    "% x [ A",
    "% x [ A ]",
    "% x {",
    "% x { @ g",
    "% x { @ g → v",
    "% x i",
    "% x i {",
    "% x i { @ g → v",
    "@",
    "@ x",
    "@ x [",
    "@ x i",
    "@ x i y",
    "@ x →",
    "@ x → v",
    ":",
    ": x",
    ": x {",
    ": x { i",
    ": x { i y",
    ": x { x",
    ": x [",
    ": x [ A ]",
    ": |",
    ": | E",
    ": | E {",
    ": | E { A",
    ": | E { A i",
    ": ~",
    ": ~ i",
    ": i x",
    ": *",
    ": [",
    ": !",
    ": ! i",
    ": (",
    ": ( @",
    ": ( @ i",
    ": ( A",
    ": ( A i",
];

/// The begins of statements and expressions in a body.
const BODIES: &[&str] = &[
    "",
    ":",
    ": ~",
    ": i",
    ": y",
    ": i y",
    "=",
    "= y",
    "= .",
    "= . y 1",
    ";",
    "~",
    "~ y",
    "~ y a",
    "~ 1",
    "!",
    "+",
    "? 1 2",
    "\\",
    "\\ →",
    "\\ → v",
    "\\ i",
    "\\ i y",
    "\\ y",
    "\\ y a",
    "\\ (",
    "Z",
    "@",
    "@ i",
    "@ i {",
    "[",
    "[ i",
    "[ i |",
    "(",
    "( y",
    "( y [",
    "( y [ i",
    "( y [ i ]",
    ".",
    "#",
    "# i",
    "# * i y",
    "??",
    "?? y",
    "?? y {",
    "?? y { A",
    "?? y { A a 1 a",
    "?? y { A →",
    "?? y { A → 1",
    "{",
];
