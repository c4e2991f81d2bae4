//! Writes types and bracketed name lists.

use super::vocabulary::*;
use super::writer::Writer;

/// Which words may begin a type.
#[derive(Clone, Copy, Debug, PartialEq, Eq)]
pub enum First {
    /// Any.
    Any,
    /// An IDENT only if it is a type name of the program (rules 3 and 4).
    Known,
    /// No IDENT (rule 5, after a field without a name).
    NoName,
    /// Only what rule 7 takes for the begin of a closure's parameter.
    Closure,
}

impl Writer<'_> {
    /// Any type.
    pub fn any_type(&mut self) {
        self.type_from(First::Any);
    }

    /// A type that begins as asked for.
    pub fn type_from(&mut self, first: First) {
        let choice = if self.is_short() {
            self.random.below(5)
        } else {
            self.random.below(12)
        };
        match choice {
            0..=2 => {
                let keyword = self.random.pick(&KEYWORDS);
                self.put(keyword);
            }
            3 | 4 => self.named_type(first),
            5 | 6 => self.prefix_type("*", 1),
            7 => self.prefix_type("?", 1),
            8 => self.prefix_type("[", 1),
            9 => self.prefix_type("!", 2),
            10 if first != First::Closure => self.instance(),
            _ => self.function_type(),
        }
    }

    /// A type name, where one may stand; else a keyword.
    fn named_type(&mut self, first: First) {
        let boolean = self.random.pick(&BOOLEANS);
        let name = match first {
            First::Any if self.random.once_in(4) => boolean,
            First::Any => self.any_name(),
            First::Known => self.known_name().unwrap_or(boolean),
            First::NoName => boolean,
            First::Closure => "i",
        };
        self.put(name);
    }

    fn prefix_type(&mut self, mark: Text, inner: usize) {
        self.put(mark);
        for _ in 0..inner {
            self.any_type();
        }
    }

    /// fn_type = '(' '@' type type* ')' ;
    fn function_type(&mut self) {
        self.put("(");
        self.put("@");
        self.any_type();
        for _ in 0..self.some(2) {
            self.any_type();
        }
        self.put(")");
    }

    /// generic_inst = '(' IDENT IDENT+ ')' ;
    fn instance(&mut self) {
        self.put("(");
        let name = self.any_name();
        self.put(name);
        self.words(true);
        self.put(")");
    }

    /// One to four words of a list, with keywords if they may stand there.
    fn words(&mut self, with_keywords: bool) {
        for _ in 0..1 + self.some(3) {
            let word = match self.random.below(4) {
                0 if with_keywords => self.random.pick(&KEYWORDS),
                1 => self.random.pick(&BOOLEANS),
                _ => self.any_name(),
            };
            self.put(word);
        }
    }

    /// A bracketed list, once in so many times.
    pub fn list_once_in(&mut self, times: usize, with_keywords: bool) {
        if self.random.once_in(times) {
            self.put("[");
            self.words(with_keywords);
            self.put("]");
        }
    }
}
