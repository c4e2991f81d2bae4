//! The productions of expressions.

use crate::coverage::{asked, asked_rule_7, took, took_literal, took_operator, COUNTS};
use crate::kinds::{row, token};
use crate::parser::{Parser, Step};
use crate::settings::PAYLOAD_LIMIT;
use crate::types::Words;

/// literal = INT | FLOAT | STR | BOOL ;
pub fn begins_literal(kind: u32) -> bool {
    matches!(
        kind,
        token::INT | token::FLOAT | token::STR | token::BOOLEAN
    )
}

/// BIN_OP = '+' | '-' | '*' | '/' | '%' | '<' | '>' | '==' | '!=' | '<=' | '>='
///        | '<<' | '>>' | '&' | '|' ;
fn is_binary_operator(kind: u32) -> bool {
    matches!(
        kind,
        token::PLUS
            | token::MINUS
            | token::STAR
            | token::SLASH
            | token::PERCENT
            | token::LESS
            | token::GREATER
            | token::EQUAL_EQUAL
            | token::NOT_EQUAL
            | token::AT_MOST
            | token::AT_LEAST
            | token::SHIFT_LEFT
            | token::SHIFT_RIGHT
            | token::AMPERSAND
            | token::BAR
    )
}

impl Parser<'_> {
    /// expr = literal | IDENT | bin_expr | not_expr | ret_expr
    ///      | complement_expr | try_expr | closure_expr | sizeof_expr | agg_expr
    ///      | slice_literal | cond_expr | block_expr | call_expr | member_expr
    ///      | cast_expr | match_expr ;
    pub fn expression(&mut self, level: u32) -> Step {
        match self.kind() {
            kind if begins_literal(kind) => {
                took("expr = literal");
                took_literal(kind);
                self.leaf(row::LITERAL, level, true)
            }
            token::IDENT => {
                took("expr = IDENT");
                self.leaf(row::NAME, level, true)
            }
            kind if is_binary_operator(kind) => {
                took_operator(kind);
                self.prefix_expr(row::BINARY, 2, level)
            }
            token::BANG => self.prefix_expr(row::NOT, 1, level),
            token::CARET => self.prefix_expr(row::RETURN, 1, level),
            token::TILDE => self.prefix_expr(row::COMPLEMENT, 1, level),
            token::BACKSLASH => self.backslash_expr(level),
            token::SIZEOF => self.sizeof_expr(level),
            token::AT => self.agg_expr(level),
            token::OPEN_BRACKET => self.slice_literal(level),
            token::QUESTION => self.prefix_expr(row::CONDITIONAL, 3, level),
            token::OPEN_BRACE => {
                took("expr = block_expr");
                self.block(level)
            }
            token::OPEN_PAREN => self.call_expr(level),
            token::DOT => self.prefix_expr(row::MEMBER, 2, level),
            token::HASH => self.cast_expr(level),
            token::DOUBLE_QUESTION => self.match_expr(level),
            _ => {
                took("expr: none begins");
                self.no_row(row::LITERAL, level)
            }
        }
    }

    /// One mark and a fixed number of expressions:
    /// bin_expr = BIN_OP expr expr ;  not_expr = '!' expr ;
    /// ret_expr = '^' expr ;  complement_expr = '~' expr ;
    /// try_expr = '\\' expr ;  cond_expr = '?' expr expr expr ;
    /// member_expr = '.' expr ( IDENT | INT | expr ) ; by rule 9 the index is
    /// one expression.
    fn prefix_expr(&mut self, kind: u32, operands: usize, level: u32) -> Step {
        took(name_of(kind));
        let index = self.open(kind, level, true)?;
        self.take(self.kind())?;
        for _ in 0..operands {
            self.expression(level + 1)?;
        }
        self.close(index)
    }

    /// try_expr or closure_expr, told apart by rule 7.
    fn backslash_expr(&mut self, level: u32) -> Step {
        if self.sees_closure() {
            self.closure_expr(level)
        } else {
            self.prefix_expr(row::TRY, 1, level)
        }
    }

    /// Rule 7: "`\` begins a closure exactly before `→`; or a keyword, `*`,
    /// `?`, `[` or `!`; or `(` `@`; or IDENT IDENT `→`."
    fn sees_closure(&self) -> bool {
        let [first, second, third] = [1, 2, 3].map(|distance| self.kind_after(distance));
        let closure = match first {
            token::ARROW => true,
            token::KEYWORD | token::STAR | token::QUESTION | token::OPEN_BRACKET | token::BANG => {
                true
            }
            token::OPEN_PAREN => second == token::AT,
            token::IDENT => second == token::IDENT && third == token::ARROW,
            _ => false,
        };
        asked_rule_7([first, second, third], closure)
    }

    /// closure_expr = '\\' param* '→' type block ;
    fn closure_expr(&mut self, level: u32) -> Step {
        took("expr = closure_expr");
        let index = self.open(row::CLOSURE, level, self.sees(token::BACKSLASH))?;
        self.take(token::BACKSLASH)?;
        self.params_and_result(level)?;
        self.block(level + 1)?;
        self.close(index)
    }

    /// sizeof_expr = 'Z' type ;
    fn sizeof_expr(&mut self, level: u32) -> Step {
        took("expr = sizeof_expr");
        let index = self.open(row::SIZEOF, level, self.sees(token::SIZEOF))?;
        self.take(token::SIZEOF)?;
        self.type_expr(level + 1)?;
        self.close(index)
    }

    /// agg_expr = '@' type '{' expr* '}' ;
    fn agg_expr(&mut self, level: u32) -> Step {
        took("expr = agg_expr");
        let index = self.open(row::AGGREGATE, level, self.sees(token::AT))?;
        self.take(token::AT)?;
        self.type_expr(level + 1)?;
        self.take(token::OPEN_BRACE)?;
        self.expressions_up_to(token::CLOSE_BRACE, level + 1, "agg_expr: another expr")?;
        self.close(index)
    }

    /// slice_literal = '[' type '|' expr* ']' ;
    fn slice_literal(&mut self, level: u32) -> Step {
        took("expr = slice_literal");
        let index = self.open(row::SLICE_LITERAL, level, self.sees(token::OPEN_BRACKET))?;
        self.take(token::OPEN_BRACKET)?;
        self.type_expr(level + 1)?;
        self.take(token::BAR)?;
        let another = "slice_literal: another expr";
        self.expressions_up_to(token::CLOSE_BRACKET, level + 1, another)?;
        self.close(index)
    }

    /// call_expr = '(' IDENT ( '[' IDENT+ ']' )? expr* ')' ;
    fn call_expr(&mut self, level: u32) -> Step {
        took("expr = call_expr");
        let index = self.open(row::CALL, level, self.sees(token::OPEN_PAREN))?;
        self.take(token::OPEN_PAREN)?;
        self.take(token::IDENT)?;
        let optional = "call_expr: ( '[' IDENT+ ']' )?";
        self.optional_name_list(Words::Used, level + 1, optional)?;
        self.expressions_up_to(token::CLOSE_PAREN, level + 1, "call_expr: another expr")?;
        self.close(index)
    }

    /// expr* and then the closing mark. The text is for the coverage counts.
    fn expressions_up_to(&mut self, closing: u32, level: u32, another: &'static str) -> Step {
        while asked(another, !self.sees(closing)) {
            self.expression(level)?;
        }
        self.take(closing)
    }

    /// cast_expr = '#' type expr [ INT ] ;
    /// Rule 8: "A cast to a pointer type takes a directly following INT whose
    /// text is `0` or `1`; no other cast does."
    fn cast_expr(&mut self, level: u32) -> Step {
        took("expr = cast_expr");
        let index = self.open(row::CAST, level, self.sees(token::HASH))?;
        self.take(token::HASH)?;
        let to_pointer = asked("rule 8: a cast to a pointer type", self.sees(token::STAR));
        self.type_expr(level + 1)?;
        self.expression(level + 1)?;
        let takes_int = to_pointer && self.settings().edition.cast_takes_int();
        if takes_int
            && asked("rule 8: an INT follows directly", self.sees(token::INT))
            && (asked("rule 8: its text is `0`", self.text() == b"0")
                || asked("rule 8: its text is `1`", self.text() == b"1"))
        {
            self.leaf(row::LITERAL, level + 1, true)?;
        }
        self.close(index)
    }

    /// match_expr = '??' expr '{' match_arm* '}' ;
    fn match_expr(&mut self, level: u32) -> Step {
        took("expr = match_expr");
        let index = self.open(row::MATCH, level, self.sees(token::DOUBLE_QUESTION))?;
        self.take(token::DOUBLE_QUESTION)?;
        self.expression(level + 1)?;
        self.take(token::OPEN_BRACE)?;
        while asked("match_expr: another arm", !self.sees(token::CLOSE_BRACE)) {
            self.match_arm(level + 1)?;
        }
        self.take(token::CLOSE_BRACE)?;
        self.close(index)
    }

    /// match_arm = ( IDENT | BOOL | '_' ) match_payload* '→' expr ;
    /// match_payload = IDENT | INT ;
    /// Rule 10: the head is an IDENT or a boolean, with zero to three payloads.
    fn match_arm(&mut self, level: u32) -> Step {
        let is_head = asked("rule 10: an IDENT is the head", self.sees(token::IDENT))
            || asked("rule 10: a boolean is the head", self.sees(token::BOOLEAN));
        if COUNTS && is_head {
            asked("match_arm: the head is `_`", self.text() == b"_");
        }
        let index = self.open(row::ARM, level, is_head)?;
        self.take(self.kind())?;
        let mut payloads = 0;
        while matches!(self.kind(), token::IDENT | token::INT)
            && asked(
                "rule 10: a payload is one of the first three",
                payloads < PAYLOAD_LIMIT,
            )
        {
            asked("match_payload = IDENT and not INT", self.sees(token::IDENT));
            self.leaf(row::PAYLOAD, level + 1, true)?;
            payloads += 1;
        }
        took(PAYLOADS[payloads]);
        self.take(token::ARROW)?;
        self.expression(level + 1)?;
        self.close(index)
    }
}

/// The coverage names of the numbers of payloads.
const PAYLOADS: [&str; PAYLOAD_LIMIT + 1] = [
    "match_arm: no payload",
    "match_arm: one payload",
    "match_arm: two payloads",
    "match_arm: three payloads",
];

/// The coverage name of a prefix expression.
fn name_of(kind: u32) -> &'static str {
    match kind {
        row::BINARY => "expr = bin_expr",
        row::NOT => "expr = not_expr",
        row::RETURN => "expr = ret_expr",
        row::COMPLEMENT => "expr = complement_expr",
        row::TRY => "expr = try_expr",
        row::CONDITIONAL => "expr = cond_expr",
        _ => "expr = member_expr",
    }
}
