//! The productions of blocks and statements.

use crate::coverage::{asked, took};
use crate::kinds::{row, token};
use crate::parser::{Parser, Step};
use crate::types::begins_type;

impl Parser<'_> {
    /// block = '{' stmt* '}' ;  block_expr = '{' stmt* '}' ;
    pub fn block(&mut self, level: u32) -> Step {
        let index = self.open(row::BLOCK, level, self.sees(token::OPEN_BRACE))?;
        self.take(token::OPEN_BRACE)?;
        while asked("block: another stmt", !self.sees(token::CLOSE_BRACE)) {
            self.statement(level + 1)?;
        }
        self.take(token::CLOSE_BRACE)?;
        self.close(index)
    }

    /// stmt = let_stmt | set_stmt | defer_stmt | tilde_stmt | expr ;
    fn statement(&mut self, level: u32) -> Step {
        match self.kind() {
            token::COLON => self.let_stmt(level),
            token::EQUALS => self.set_stmt(level),
            token::SEMICOLON => self.defer_stmt(level),
            token::TILDE => self.tilde_stmt(level),
            _ => {
                took("stmt = expr");
                self.expression(level)
            }
        }
    }

    /// let_stmt = ':' '~'? type? IDENT expr ;
    fn let_stmt(&mut self, level: u32) -> Step {
        took("stmt = let_stmt");
        let index = self.open(row::LET, level, self.sees(token::COLON))?;
        self.take(token::COLON)?;
        if asked("let_stmt: '~'?", self.sees(token::TILDE)) {
            self.take(token::TILDE)?;
        }
        if asked("let_stmt: type?", self.sees_let_type()) {
            self.type_expr(level + 1)?;
        }
        self.take(token::IDENT)?;
        self.expression(level + 1)?;
        self.close(index)
    }

    /// Rule 3: "A let's leading IDENT is its type if in N, else its name. `T`
    /// and `F` there are types."
    fn sees_let_type(&self) -> bool {
        if self.sees(token::IDENT) {
            asked(
                "rule 3: a let's leading IDENT is in N",
                self.sees_type_name(),
            )
        } else {
            asked("rule 3: `T` or `F` leads", self.sees(token::BOOLEAN));
            asked(
                "rule 3: another leading token begins a type",
                begins_type(self.kind()),
            )
        }
    }

    /// set_stmt = '=' IDENT expr | '=' '.' expr ( IDENT | INT | expr ) expr ;
    /// Rule 9: the index is one expression.
    fn set_stmt(&mut self, level: u32) -> Step {
        took("stmt = set_stmt");
        let index = self.open(row::SET_NAME, level, self.sees(token::EQUALS))?;
        self.take(token::EQUALS)?;
        if self.sees(token::DOT) {
            took("set_stmt = '=' '.' expr index expr");
            self.change_kind(index, row::SET_ELEMENT);
            self.take(token::DOT)?;
            self.expression(level + 1)?;
            self.expression(level + 1)?;
        } else {
            took("set_stmt = '=' IDENT expr");
            self.take(token::IDENT)?;
        }
        self.expression(level + 1)?;
        self.close(index)
    }

    /// defer_stmt = ';' block ;
    fn defer_stmt(&mut self, level: u32) -> Step {
        took("stmt = defer_stmt");
        let index = self.open(row::DEFER, level, self.sees(token::SEMICOLON))?;
        self.take(token::SEMICOLON)?;
        self.block(level + 1)?;
        self.close(index)
    }

    /// tilde_stmt = loop_stmt | foreach_stmt | complement_expr ;
    /// Rule 6: "two IDENTs make a foreach. Otherwise it is a loop if `{`
    /// follows the expression, and a complement if not."
    fn tilde_stmt(&mut self, level: u32) -> Step {
        took("stmt = tilde_stmt");
        let two_idents = self.sees_all(&[token::TILDE, token::IDENT, token::IDENT]);
        if asked("rule 6: two IDENTs after `~`", two_idents) {
            return self.foreach_stmt(level);
        }
        let index = self.open(row::COMPLEMENT, level, self.sees(token::TILDE))?;
        self.take(token::TILDE)?;
        self.expression(level + 1)?;
        if asked(
            "rule 6: `{` follows the expression",
            self.sees(token::OPEN_BRACE),
        ) {
            self.change_kind(index, row::WHILE);
            self.block(level + 1)?;
        }
        self.close(index)
    }

    /// foreach_stmt = '~' IDENT expr block ;
    fn foreach_stmt(&mut self, level: u32) -> Step {
        let index = self.open(row::FOREACH, level, self.sees(token::TILDE))?;
        self.take(token::TILDE)?;
        self.take(token::IDENT)?;
        self.expression(level + 1)?;
        self.block(level + 1)?;
        self.close(index)
    }
}
