//! Token lists that are nested to about the level limit.

use super::vocabulary::{any_token, Text};
use crate::random::Random;
use crate::settings::LEVEL_LIMIT;

/// Something that holds an inner expression or type: the tokens before and
/// after it, and how many levels deeper the inner one stands.
struct Nest {
    open: &'static [Text],
    close: &'static [Text],
    levels: u32,
}

const fn nest(open: &'static [Text], close: &'static [Text], levels: u32) -> Nest {
    Nest {
        open,
        close,
        levels,
    }
}

const EXPRESSIONS: [Nest; 14] = [
    nest(&["!"], &[], 1),
    nest(&["!"], &[], 1),
    nest(&["^"], &[], 1),
    nest(&["~"], &[], 1),
    nest(&["\\", "^"], &[], 2),
    nest(&["{"], &["}"], 1),
    nest(&["(", "h"], &[")"], 1),
    nest(&["[", "i", "|"], &["]"], 1),
    nest(&["@", "A", "{"], &["}"], 1),
    nest(&["#", "i"], &[], 1),
    nest(&["+", "1"], &[], 1),
    nest(&["."], &["x"], 1),
    nest(&["??", "x", "{", "A", "→"], &["}"], 2),
    nest(&["\\", "→", "v", "{"], &["}"], 2),
];

const TYPES: [Nest; 5] = [
    nest(&["*"], &[], 1),
    nest(&["?"], &[], 1),
    nest(&["["], &[], 1),
    nest(&["!", "i"], &[], 1),
    nest(&["(", "@"], &[")"], 1),
];

/// A token list whose innermost expression or type stands around the level
/// limit, most often with a token there that can begin one.
pub fn deep_tokens(random: &mut Random) -> Vec<Text> {
    let in_type = random.once_in(3);
    let (head, tail, nests, level): (&[Text], &[Text], &[Nest], u32) = if in_type {
        (&[":"], &["x", "1"], &TYPES, 3)
    } else {
        (&["@", "g", "→", "v", "{"], &["}"], &EXPRESSIONS, 4)
    };
    let wanted = LEVEL_LIMIT - 2 + random.below(5) as u32;
    let mut tokens = head.to_vec();
    let mut closing: Vec<&[Text]> = Vec::new();
    let mut level = level;
    while level < wanted {
        let chosen = &nests[random.below(nests.len())];
        tokens.extend_from_slice(chosen.open);
        closing.push(chosen.close);
        level += chosen.levels;
    }
    let core = match random.below(4) {
        0 => any_token(random),
        _ if in_type => "i",
        _ => "1",
    };
    tokens.push(core);
    for close in closing.iter().rev() {
        tokens.extend_from_slice(close);
    }
    tokens.extend_from_slice(tail);
    tokens
}
