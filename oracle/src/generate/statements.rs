//! Writes blocks and statements.

use super::types::First;
use super::writer::{is_name, Writer};

impl Writer<'_> {
    /// block = '{' stmt* '}' ;
    pub fn block(&mut self) {
        let count = self.some(3);
        self.block_of(count);
    }

    /// A block of so many statements.
    pub fn block_of(&mut self, statements: usize) {
        self.put("{");
        let mut after_complement = false;
        for _ in 0..statements {
            after_complement = self.statement(after_complement);
        }
        self.put("}");
    }

    /// A statement. Answers whether it was a complement: then the next
    /// statement may not begin with `{`, nor with an IDENT (rule 6).
    pub fn statement(&mut self, after_complement: bool) -> bool {
        match self.random.below(12) {
            0..=2 => self.let_statement(),
            3 => {
                self.put("=");
                let name = self.any_name();
                self.put(name);
                self.expression();
            }
            4 => {
                self.put("=");
                self.put(".");
                for _ in 0..3 {
                    self.expression();
                }
            }
            5 => {
                self.put(";");
                self.block();
            }
            6 => {
                self.put("~");
                self.expression();
                self.block();
            }
            7 => self.foreach(),
            8 => {
                self.put("~");
                self.expression();
                return true;
            }
            _ if after_complement => self.plain_expression(),
            _ => self.expression_statement(),
        }
        false
    }

    /// let_stmt = ':' '~'? type? IDENT expr ;
    fn let_statement(&mut self) {
        self.put(":");
        if self.random.once_in(3) {
            self.put("~");
        }
        let typed = self.random.once_in(2);
        if typed {
            self.type_from(First::Known);
        }
        // Rule 3: without a type, a type name would be taken for one.
        let name = if typed {
            self.any_name()
        } else {
            self.unknown_name()
        };
        self.put(name);
        self.expression();
    }

    /// foreach_stmt = '~' IDENT expr block ; by rule 6 the expression begins
    /// with an IDENT, so it is one.
    fn foreach(&mut self) {
        self.put("~");
        for _ in 0..2 {
            let name = self.any_name();
            self.put(name);
        }
        debug_assert!(self.written(0).is_some_and(is_name));
        self.block();
    }
}
