//! Writes expressions.

use super::types::First;
use super::vocabulary::*;
use super::writer::{is_name, Writer};

/// The forms of an expression.
#[derive(Clone, Copy, Debug, PartialEq, Eq)]
enum Form {
    Literal,
    Name,
    Binary,
    Not,
    Return,
    Complement,
    Try,
    Closure,
    Sizeof,
    Aggregate,
    Slice,
    Conditional,
    Block,
    Call,
    Member,
    Cast,
    Match,
}

const ALL: [Form; 21] = [
    Form::Literal,
    Form::Literal,
    Form::Name,
    Form::Name,
    Form::Binary,
    Form::Binary,
    Form::Not,
    Form::Return,
    Form::Complement,
    Form::Try,
    Form::Closure,
    Form::Sizeof,
    Form::Aggregate,
    Form::Slice,
    Form::Conditional,
    Form::Block,
    Form::Call,
    Form::Call,
    Form::Member,
    Form::Cast,
    Form::Match,
];

/// The forms that rule 7 leaves to a try: none begins with `?`, `[` or `!`.
const AFTER_TRY: [Form; 13] = [
    Form::Literal,
    Form::Name,
    Form::Binary,
    Form::Return,
    Form::Complement,
    Form::Try,
    Form::Closure,
    Form::Sizeof,
    Form::Aggregate,
    Form::Block,
    Form::Call,
    Form::Member,
    Form::Cast,
];

/// The forms that begin with neither `~`, nor `{`, nor an IDENT.
const PLAIN: [Form; 11] = [
    Form::Literal,
    Form::Binary,
    Form::Not,
    Form::Return,
    Form::Try,
    Form::Closure,
    Form::Aggregate,
    Form::Conditional,
    Form::Call,
    Form::Cast,
    Form::Match,
];

/// The forms that a statement may be: all but a complement (rule 6).
const STATEMENT: [Form; 8] = [
    Form::Return,
    Form::Call,
    Form::Name,
    Form::Block,
    Form::Match,
    Form::Conditional,
    Form::Literal,
    Form::Binary,
];

impl Writer<'_> {
    /// Any expression.
    pub fn expression(&mut self) {
        self.expression_of(&ALL);
    }

    /// An expression that is a statement of its own.
    pub fn expression_statement(&mut self) {
        if self.random.once_in(2) {
            self.expression_of(&STATEMENT);
        } else {
            self.expression_of(&PLAIN);
        }
    }

    /// An expression that begins with neither `~`, nor `{`, nor an IDENT.
    pub fn plain_expression(&mut self) {
        self.expression_of(&PLAIN);
    }

    fn expression_of(&mut self, forms: &[Form]) {
        let form = if !self.is_short() {
            self.random.pick(forms)
        } else if forms.contains(&Form::Name) && self.random.once_in(2) {
            Form::Name
        } else {
            Form::Literal
        };
        self.write_form(form, forms == AFTER_TRY);
    }

    fn write_form(&mut self, form: Form, after_try: bool) {
        match form {
            Form::Literal => self.literal(),
            Form::Name => {
                let name = self.any_name();
                self.put(name);
            }
            Form::Binary => {
                // Rule 7: a `*` after `\` begins a closure.
                let operators = if after_try { 14 } else { 15 };
                let operator = self.random.pick(&OPERATORS[..operators]);
                self.prefix(operator, 2);
            }
            Form::Not => self.prefix("!", 1),
            Form::Return => self.prefix("^", 1),
            Form::Complement => self.prefix("~", 1),
            Form::Try => {
                self.put("\\");
                self.expression_of(&AFTER_TRY);
            }
            Form::Closure => self.closure(),
            Form::Sizeof => {
                self.put("Z");
                self.any_type();
            }
            Form::Aggregate => self.aggregate(),
            Form::Slice => self.slice_literal(),
            Form::Conditional => self.prefix("?", 3),
            Form::Block => self.block(),
            Form::Call => self.call(),
            Form::Member => self.prefix(".", 2),
            Form::Cast => self.cast(),
            Form::Match => self.match_expression(),
        }
    }

    fn prefix(&mut self, mark: Text, operands: usize) {
        self.put(mark);
        for _ in 0..operands {
            self.expression();
        }
    }

    /// literal = INT | FLOAT | STR | BOOL ;
    pub fn literal(&mut self) {
        let text = match self.random.below(6) {
            0 => self.random.pick(&FLOATS),
            1 => self.random.pick(&STRINGS),
            2 => self.random.pick(&BOOLEANS),
            _ if self.pointer_cast_end == self.tokens.len() => self.random.pick(&INTS[2..]),
            _ => self.random.pick(&INTS),
        };
        self.put(text);
    }

    /// closure_expr = '\\' param* '→' type block ;
    fn closure(&mut self) {
        self.put("\\");
        match self.random.below(3) {
            0 => {}
            1 => {
                let (of_type, name) = (self.any_name(), self.any_name());
                self.put(of_type);
                self.put(name);
            }
            _ => {
                self.type_from(First::Closure);
                let name = self.any_name();
                self.put(name);
                self.parameters();
            }
        }
        self.put("→");
        self.any_type();
        self.block();
    }

    /// agg_expr = '@' type '{' expr* '}' ;
    fn aggregate(&mut self) {
        self.put("@");
        self.any_type();
        self.put("{");
        self.expressions(3);
        self.put("}");
    }

    /// slice_literal = '[' type '|' expr* ']' ;
    fn slice_literal(&mut self) {
        self.put("[");
        self.any_type();
        self.put("|");
        self.expressions(4);
        self.put("]");
    }

    /// call_expr = '(' IDENT ( '[' IDENT+ ']' )? expr* ')' ;
    fn call(&mut self) {
        self.put("(");
        let name = self.any_name();
        self.put(name);
        self.list_once_in(4, true);
        self.expressions(3);
        self.put(")");
    }

    fn expressions(&mut self, most: usize) {
        for _ in 0..self.some(most) {
            self.expression();
        }
    }

    /// cast_expr = '#' type expr [ INT ] ;
    fn cast(&mut self) {
        self.put("#");
        let type_begin = self.tokens.len();
        self.any_type();
        let to_pointer = self.tokens[type_begin] == "*";
        self.expression();
        if !to_pointer {
            return;
        }
        // Rule 8: an inner cast would take the INT first.
        if self.pointer_cast_end != self.tokens.len() && self.random.once_in(2) {
            let int = self.random.pick(&INTS[..2]);
            self.put(int);
        } else {
            self.pointer_cast_end = self.tokens.len();
        }
    }

    /// match_expr = '??' expr '{' match_arm* '}' ;
    fn match_expression(&mut self) {
        self.put("??");
        self.expression();
        self.put("{");
        for _ in 0..self.some(3) {
            self.arm();
        }
        self.put("}");
    }

    /// match_arm = ( IDENT | BOOL | '_' ) match_payload* '→' expr ;
    fn arm(&mut self) {
        // Rule 7: `\` IDENT before IDENT `→` would be a closure.
        let after_try_of_name =
            self.written(1) == Some("\\") && self.written(0).is_some_and(is_name);
        if self.random.once_in(4) {
            let head = self.random.pick(&BOOLEANS);
            self.put(head);
        } else {
            let head = self.any_name();
            self.put(head);
            if after_try_of_name {
                self.payload();
            }
        }
        let least = usize::from(after_try_of_name);
        for _ in least..self.some(3).max(least) {
            self.payload();
        }
        self.put("→");
        self.expression();
    }

    /// match_payload = IDENT | INT ;
    fn payload(&mut self) {
        let text = if self.random.once_in(3) {
            self.random.pick(&INTS)
        } else {
            self.any_name()
        };
        self.put(text);
    }
}
