//! The class `token-dense`: short tokens with few spaces between them.

use super::{no_names, Class};

pub const TOKEN_DENSE: Class = Class {
    name: "token-dense",
    head: "",
    piece,
    names: no_names,
};

const BODIES: [&str; 4] = [
    "=a+*c-d|e 1 2;{(k l[i|-1 2])}~<a 9{=a+a 1}",
    "?!a{^.p q}{^#*u r 0}(k(l m)(n))=.p 3&a c",
    "??r{X a→1 T→{}_→-2.5e1}: i x<<1>>a 8==a!=c~d",
    "\\i y→i{*y y}@(P i c){1 2}Z*?[i^%a 7>=a<=c!~d",
];

fn piece(number: usize) -> String {
    format!("@g i x→v{{{}}}", BODIES[number % BODIES.len()])
}
