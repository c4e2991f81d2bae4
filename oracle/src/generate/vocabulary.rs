//! The words and marks of which generated programs and token lists are made.

use crate::random::Random;

/// The text of one token.
pub type Text = &'static str;

pub const KEYWORDS: [Text; 6] = ["i", "u", "f", "b", "s", "v"];

pub const BOOLEANS: [Text; 2] = ["T", "F"];

/// Names that a program may declare as types. `m::Band` is also written
/// `m__Band`, which is the same name.
pub const TYPE_NAMES: [Text; 8] = [
    "Point", "Band", "Vec", "Pair", "Json", "Event", "m::Band", "E",
];

/// The names of `TYPE_NAMES` as they are written when used.
pub const WRITTEN_TYPE_NAMES: [Text; 9] = [
    "Point", "Band", "Vec", "Pair", "Json", "Event", "m::Band", "m__Band", "E",
];

/// Names that no program declares as types.
pub const OTHER_NAMES: [Text; 24] = [
    "x", "y", "n", "a", "val", "band", "total", "xs", "buf", "low", "high", "item", "count", "key",
    "_", "_x", "m::alloc", "m::h::k", "hour", "level", "Red", "Ok", "None", "print",
];

pub const INTS: [Text; 12] = [
    "0", "1", "2", "7", "42", "-7", "-40", "60", "007", "255", "-0", "10",
];

pub const FLOATS: [Text; 7] = [
    "3.14", "-0.5", "1.0e10", "6.022E23", "1.5e-3", "2.5E+3", "0.0",
];

pub const STRINGS: [Text; 8] = [
    "`path`",
    "``",
    "`hello\\n`",
    "`a, b // c`",
    "`{ : Foo`",
    "`→`",
    "`two\nlines`",
    "`use \\\\`",
];

pub const OPERATORS: [Text; 15] = [
    "+", "-", "/", "%", "<", ">", "==", "!=", "<=", ">=", "<<", ">>", "&", "|", "*",
];

/// One token of each kind, in the order of the kinds.
pub const EACH_KIND: [Text; 42] = [
    "x", "i", "T", "Z", "5", "1.5", "`s`", "$", "&", "@", "%", ":", "|", "=", ";", "~", "{", "}",
    "(", ")", "[", "]", "!", "^", "\\", "?", ".", "#", "*", "+", "-", "/", "<", ">", "==", "!=",
    "<=", ">=", "<<", ">>", "??", "→",
];

/// Whether a name is one that `TYPE_NAMES` has, and which.
pub fn declared_form(name: Text) -> Option<Text> {
    let plain = if name == "m__Band" { "m::Band" } else { name };
    TYPE_NAMES.iter().copied().find(|known| *known == plain)
}

/// A token of any kind, those that open, close and name things more often.
pub fn any_token(random: &mut Random) -> Text {
    match random.below(10) {
        0 => random.pick(&OTHER_NAMES),
        1 => random.pick(&WRITTEN_TYPE_NAMES),
        2 => random.pick(&INTS),
        3 => random.pick(&["{", "}", "(", ")", "[", "]", "→", ":", "@"]),
        4 => random.pick(&["\\", "?", "*", "!", "~", "#", "??", "|"]),
        5 => random.pick(&KEYWORDS),
        _ => random.pick(&EACH_KIND),
    }
}
