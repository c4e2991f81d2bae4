//! What the writers of valid programs share: the tokens written so far, the
//! type names of the program, and how much may still be written. The
//! productions are in `declarations`, `statements`, `expressions` and `types`
//! beside this file. They follow the rules 1 to 11 of the scope, so that what
//! they write has a derivation.

use super::vocabulary::*;
use crate::random::Random;

/// A program as a token list, with the list of extra names it needs.
#[derive(Clone, Debug, PartialEq, Eq)]
pub struct Written {
    pub tokens: Vec<Text>,
    pub names: String,
}

/// A program under way.
pub struct Writer<'a> {
    pub random: &'a mut Random,
    pub tokens: Vec<Text>,
    /// The type names of the program, the set N.
    pub known: Vec<Text>,
    /// About how many tokens may still be written. From 0 on only the shortest
    /// forms are chosen.
    budget: i64,
    /// Where a cast to a pointer type ends that has not taken an INT: rule 8
    /// gives it a `0` or `1` that follows directly.
    pub pointer_cast_end: usize,
}

impl Writer<'_> {
    pub fn new(random: &mut Random) -> Writer<'_> {
        Writer {
            random,
            tokens: Vec::new(),
            known: Vec::new(),
            budget: 0,
            pointer_cast_end: usize::MAX,
        }
    }

    /// Writes one token.
    pub fn put(&mut self, text: Text) {
        self.tokens.push(text);
        self.budget -= 1;
    }

    /// Allows about so many tokens from now on.
    pub fn allow(&mut self, tokens: usize) {
        self.budget = tokens as i64;
    }

    /// Whether only the shortest forms are to be chosen.
    pub fn is_short(&self) -> bool {
        self.budget <= 0
    }

    /// The number of items of a list: few, and none when it must be short.
    pub fn some(&mut self, most: usize) -> usize {
        if self.is_short() {
            0
        } else {
            self.random.below(most + 1)
        }
    }

    /// The token written last but `back`, if there are so many.
    pub fn written(&self, back: usize) -> Option<Text> {
        let count = self.tokens.len();
        count.checked_sub(back + 1).map(|index| self.tokens[index])
    }

    /// Whether a name is a type name of the program.
    pub fn is_known(&self, name: Text) -> bool {
        declared_form(name).is_some_and(|form| self.known.contains(&form))
    }

    /// Any IDENT.
    pub fn any_name(&mut self) -> Text {
        if self.random.once_in(5) {
            self.random.pick(&WRITTEN_TYPE_NAMES)
        } else {
            self.random.pick(&OTHER_NAMES)
        }
    }

    /// An IDENT that is not a type name of the program.
    pub fn unknown_name(&mut self) -> Text {
        let name = self.any_name();
        if self.is_known(name) {
            self.random.pick(&OTHER_NAMES)
        } else {
            name
        }
    }

    /// An IDENT that is a type name of the program, if it has one.
    pub fn known_name(&mut self) -> Option<Text> {
        if self.known.is_empty() {
            return None;
        }
        let name = self.random.pick(&self.known);
        if name == "m::Band" && self.random.once_in(2) {
            return Some("m__Band");
        }
        Some(name)
    }
}

/// Whether a token's text is an IDENT of the vocabulary.
pub fn is_name(text: Text) -> bool {
    OTHER_NAMES.contains(&text) || WRITTEN_TYPE_NAMES.contains(&text)
}
