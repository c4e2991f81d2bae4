//! Counters of what readings pass: alternatives taken, conditions held or not,
//! and rows called for past the level limit. They count only with the cargo
//! feature `coverage`; without it each function here is nothing, or gives back
//! what it was given.

use crate::kinds::{row, token};

/// Whether the counters count.
pub const COUNTS: bool = cfg!(feature = "coverage");

/// Counts that an alternative of a production was taken.
#[inline(always)]
pub fn took(alternative: &'static str) {
    if COUNTS {
        counters::add(alternative, true);
    }
}

/// Counts how a condition was found, and gives it back.
#[inline(always)]
pub fn asked(condition: &'static str, held: bool) -> bool {
    if COUNTS {
        counters::add(condition, held);
    }
    held
}

/// Counts a row that would be past the level limit: whether the next token can
/// begin it (7 is answered) or not (6).
#[inline(always)]
pub fn past_the_limit(kind: u32, can_begin: bool) {
    if COUNTS {
        counters::add(called_for(kind), can_begin);
        if can_begin {
            counters::add_limit_row(kind);
        }
    }
}

/// Counts rule 7, asked of the kinds of the three tokens after `\`, and gives
/// back what was found.
#[inline(always)]
pub fn asked_rule_7(kinds: [u32; 3], closure: bool) -> bool {
    if COUNTS {
        let [first, second, third] = kinds;
        for (condition, kind) in RULE_7_FIRST {
            asked(condition, first == kind);
        }
        if first == token::OPEN_PAREN {
            asked("rule 7: `(` is before `@`", second == token::AT);
        }
        if first == token::IDENT && asked("rule 7: IDENT is before IDENT", second == token::IDENT) {
            asked("rule 7: IDENT IDENT is before `→`", third == token::ARROW);
        }
    }
    asked("rule 7: `\\` begins a closure", closure)
}

const RULE_7_FIRST: [(&str, u32); 6] = [
    ("rule 7: `\\` is before `→`", token::ARROW),
    ("rule 7: `\\` is before a keyword", token::KEYWORD),
    ("rule 7: `\\` is before `*`", token::STAR),
    ("rule 7: `\\` is before `?`", token::QUESTION),
    ("rule 7: `\\` is before `[`", token::OPEN_BRACKET),
    ("rule 7: `\\` is before `!`", token::BANG),
];

/// What a row past the limit was called for as.
fn called_for(kind: u32) -> &'static str {
    match kind {
        row::PARAMETER => "past the limit: a parameter",
        row::NAME_LIST => "past the limit: a bracketed list",
        row::PAYLOAD => "past the limit: a payload",
        row::BLOCK => "past the limit: a block",
        row::LET..=row::FOREACH => "past the limit: a statement",
        row::LITERAL..=row::ARM => "past the limit: an expression",
        _ => "past the limit: a type",
    }
}

/// The name of an alternative of `expr` that is a binary operator.
#[inline(always)]
pub fn took_operator(kind: u32) {
    if COUNTS {
        let mark = token::MARKS[(kind - token::FIRST_MARK) as usize];
        let operator = OPERATORS.iter().find(|name| name.ends_with(mark));
        took(operator.expect("an operator"));
    }
}

/// The name of an alternative of `base_type`.
#[inline(always)]
pub fn took_base_type(text: &[u8]) {
    if COUNTS {
        let names = BASE_TYPES.iter();
        let mut found = names.filter(|name| name.as_bytes().ends_with(text));
        took(found.next().expect("a base type"));
    }
}

/// The name of an alternative of `literal`.
#[inline(always)]
pub fn took_literal(kind: u32) {
    match kind {
        token::INT => took("literal = INT"),
        token::FLOAT => took("literal = FLOAT"),
        token::STR => took("literal = STR"),
        _ => took("literal = BOOL"),
    }
}

/// The name of an alternative of the words of a list.
#[inline(always)]
pub fn took_word(kind: u32) {
    match kind {
        token::IDENT => took("word of a list = IDENT"),
        token::BOOLEAN => took("word of a list = `T` or `F`"),
        _ => took("word of a list = keyword"),
    }
}

const OPERATORS: [&str; 15] = [
    "BIN_OP = +",
    "BIN_OP = -",
    "BIN_OP = *",
    "BIN_OP = /",
    "BIN_OP = %",
    "BIN_OP = <",
    "BIN_OP = >",
    "BIN_OP = ==",
    "BIN_OP = !=",
    "BIN_OP = <=",
    "BIN_OP = >=",
    "BIN_OP = <<",
    "BIN_OP = >>",
    "BIN_OP = &",
    "BIN_OP = |",
];

const BASE_TYPES: [&str; 6] = [
    "base_type = i",
    "base_type = u",
    "base_type = f",
    "base_type = b",
    "base_type = s",
    "base_type = v",
];

/// The counters themselves, one set for each thread.
pub mod counters {
    use crate::kinds::row;
    use std::cell::RefCell;
    use std::collections::BTreeMap;

    /// Counts by name, those that did not hold first.
    pub type Named = BTreeMap<&'static str, [usize; 2]>;

    /// Counts by row kind.
    pub type ByRow = [usize; row::LAST as usize + 1];

    thread_local! {
        static NAMED: RefCell<Named> = const { RefCell::new(BTreeMap::new()) };
        static LIMIT_ROWS: RefCell<ByRow> = const { RefCell::new([0; row::LAST as usize + 1]) };
    }

    pub(super) fn add(name: &'static str, held: bool) {
        NAMED.with(|counts| counts.borrow_mut().entry(name).or_default()[usize::from(held)] += 1);
    }

    pub(super) fn add_limit_row(kind: u32) {
        LIMIT_ROWS.with(|counts| counts.borrow_mut()[kind as usize] += 1);
    }

    /// Sets every count of this thread to nothing.
    pub fn reset() {
        NAMED.with(|counts| counts.borrow_mut().clear());
        LIMIT_ROWS.with(|counts| *counts.borrow_mut() = [0; row::LAST as usize + 1]);
    }

    /// The counts of this thread.
    pub fn found() -> (Named, ByRow) {
        let named = NAMED.with(|counts| counts.borrow().clone());
        (named, LIMIT_ROWS.with(|counts| *counts.borrow()))
    }
}
