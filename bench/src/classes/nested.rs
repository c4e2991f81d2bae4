//! The class `nested`: constructs that stand inside each other down to about
//! level 190, again and again.

use super::{no_names, Class};

pub const NESTED: Class = Class {
    name: "nested",
    head: "",
    piece,
    names: no_names,
};

/// How often a construct stands inside itself. The first stands at level 4.
const TIMES: usize = 186;

/// What opens a construct, what stands innermost, and what closes it.
const CONSTRUCTS: [(&str, &str, &str); 6] = [
    ("{", "1", "}"),
    ("+1", " 1", ""),
    ("! ", "1", ""),
    ("(g", " 1", ")"),
    ("?c ", "1", " 2"),
    ("[i|", "1", "]"),
];

fn piece(number: usize) -> String {
    let (open, inside, close) = CONSTRUCTS[number % CONSTRUCTS.len()];
    let (open, close) = (open.repeat(TIMES), close.repeat(TIMES));
    format!("@ g → v {{ {open}{inside}{close} }}\n")
}
