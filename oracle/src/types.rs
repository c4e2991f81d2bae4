//! The productions of types and of bracketed name lists.

use crate::coverage::{asked, took, took_base_type, took_word};
use crate::kinds::{row, token};
use crate::parser::{Parser, Step};

/// Which words a bracketed list may hold (rule 2).
#[derive(Clone, Copy, Debug, PartialEq, Eq)]
pub enum Words {
    /// In a declaration: IDENT, `T`, `F`.
    Declared,
    /// At a call, and in `( Name .. )`: keywords too.
    Used,
}

impl Words {
    fn include(self, kind: u32) -> bool {
        match kind {
            token::IDENT | token::BOOLEAN => true,
            token::KEYWORD => self == Words::Used,
            _ => false,
        }
    }

    /// The coverage name of rule 2 for these words.
    fn rule_2(self) -> &'static str {
        match self {
            Words::Declared => "rule 2: `[` opens a list in a declaration",
            Words::Used => "rule 2: `[` opens a list at a call",
        }
    }
}

/// Whether a token of this kind can begin a type.
pub fn begins_type(kind: u32) -> bool {
    matches!(
        kind,
        token::KEYWORD
            | token::STAR
            | token::QUESTION
            | token::OPEN_BRACKET
            | token::BANG
            | token::OPEN_PAREN
            | token::IDENT
            | token::BOOLEAN
    )
}

impl Parser<'_> {
    /// type = base_type | ptr_type | opt_type | slice_type | res_type | fn_type
    ///      | generic_inst | IDENT ;
    /// Rule 1: a type name is any IDENT, `T` or `F`.
    pub fn type_expr(&mut self, level: u32) -> Step {
        match self.kind() {
            token::KEYWORD => {
                took("type = base_type");
                took_base_type(self.text());
                self.leaf(row::BASE_TYPE, level, true)
            }
            token::STAR => self.prefix_type(row::POINTER, 1, level),
            token::QUESTION => self.prefix_type(row::OPTIONAL, 1, level),
            token::OPEN_BRACKET => self.prefix_type(row::SLICE_TYPE, 1, level),
            token::BANG => self.prefix_type(row::RESULT, 2, level),
            token::OPEN_PAREN => {
                if self.kind_after(1) == token::AT {
                    self.fn_type(level)
                } else {
                    self.generic_inst(level)
                }
            }
            token::IDENT | token::BOOLEAN => {
                asked("type = IDENT, and not `T` or `F`", self.sees(token::IDENT));
                self.leaf(row::NAMED_TYPE, level, true)
            }
            _ => {
                took("type: none begins");
                self.no_row(row::NAMED_TYPE, level)
            }
        }
    }

    /// ptr_type = '*' type ;  opt_type = '?' type ;  slice_type = '[' type ;
    /// res_type = '!' type type ;
    fn prefix_type(&mut self, kind: u32, inner_types: usize, level: u32) -> Step {
        took(name_of(kind));
        let index = self.open(kind, level, true)?;
        self.take(self.kind())?;
        for _ in 0..inner_types {
            self.type_expr(level + 1)?;
        }
        self.close(index)
    }

    /// fn_type = '(' '@' type type* ')' ;
    fn fn_type(&mut self, level: u32) -> Step {
        took("type = fn_type");
        let index = self.open(row::FUNCTION_TYPE, level, self.sees(token::OPEN_PAREN))?;
        self.take(token::OPEN_PAREN)?;
        self.take(token::AT)?;
        self.type_expr(level + 1)?;
        while asked("fn_type: another type", !self.sees(token::CLOSE_PAREN)) {
            self.type_expr(level + 1)?;
        }
        self.take(token::CLOSE_PAREN)?;
        self.close(index)
    }

    /// generic_inst = '(' IDENT IDENT+ ')' ;
    /// Rule 2: the words are IDENT, `T`, `F` and keywords.
    fn generic_inst(&mut self, level: u32) -> Step {
        took("type = generic_inst");
        let index = self.open(row::GENERIC_INSTANCE, level, self.sees(token::OPEN_PAREN))?;
        self.take(token::OPEN_PAREN)?;
        self.take(token::IDENT)?;
        self.words(Words::Used)?;
        self.take(token::CLOSE_PAREN)?;
        self.close(index)
    }

    /// One or more words, which have no rows.
    fn words(&mut self, words: Words) -> Step {
        if !asked("a first word", words.include(self.kind())) {
            return Err(self.cannot_take());
        }
        while asked("IDENT+: another word", words.include(self.kind())) {
            took_word(self.kind());
            self.take(self.kind())?;
        }
        Ok(())
    }

    /// Rule 2: "`[` opens such a list where one is allowed and one or more such
    /// words run up to a `]`". Whether that is so at the next token.
    pub fn sees_name_list(&self, words: Words) -> bool {
        if !self.sees(token::OPEN_BRACKET) {
            return false;
        }
        let mut distance = 1;
        while words.include(self.kind_after(distance)) {
            distance += 1;
        }
        let ends = self.kind_after(distance) == token::CLOSE_BRACKET;
        asked(words.rule_2(), distance > 1 && ends);
        asked("rule 2: one or more words", distance > 1)
            && asked("rule 2: the words run up to a `]`", ends)
    }

    /// type_params? and ( '[' IDENT+ ']' )? : a bracketed list if one opens here.
    /// The text is for the coverage counts.
    pub fn optional_name_list(&mut self, words: Words, level: u32, optional: &'static str) -> Step {
        if !asked(optional, self.sees_name_list(words)) {
            return Ok(());
        }
        let index = self.open(row::NAME_LIST, level, true)?;
        self.take(token::OPEN_BRACKET)?;
        self.words(words)?;
        self.take(token::CLOSE_BRACKET)?;
        self.close(index)
    }
}

/// The coverage name of a prefix type.
fn name_of(kind: u32) -> &'static str {
    match kind {
        row::POINTER => "type = ptr_type",
        row::OPTIONAL => "type = opt_type",
        row::SLICE_TYPE => "type = slice_type",
        _ => "type = res_type",
    }
}
