//! The parser's state: where it is in the tokens, the rows made so far, and
//! how rows are opened and closed. The productions themselves are in
//! `declarations`, `statements`, `expressions` and `types`.

use crate::coverage::{asked, past_the_limit};
use crate::kinds::{row, token};
use crate::names::TypeNames;
use crate::settings::Settings;
use crate::tokens::Token;

/// One row of the tree.
#[derive(Clone, Copy, Debug, PartialEq, Eq)]
pub struct Row {
    pub kind: u32,
    pub first: usize,
    pub covered: usize,
    pub subtree: usize,
}

/// Why a reading stops: refusal 6 or 7, each with its token index.
#[derive(Clone, Copy, Debug, PartialEq, Eq)]
pub enum Stop {
    NoProgram(usize),
    TooDeep(usize),
}

/// The result of reading one production.
pub type Step = Result<(), Stop>;

/// A reading under way. Every production is a method that takes the level at
/// which its row stands.
pub struct Parser<'a> {
    source: &'a [u8],
    tokens: &'a [Token],
    names: &'a TypeNames,
    settings: Settings,
    next: usize,
    rows: Vec<Row>,
}

/// The rows of the derivation of these tokens, or why there is none.
pub fn parse(
    source: &[u8],
    tokens: &[Token],
    names: &TypeNames,
    settings: Settings,
) -> Result<Vec<Row>, Stop> {
    let mut parser = Parser {
        source,
        tokens,
        names,
        settings,
        next: 0,
        rows: Vec::new(),
    };
    parser.program()?;
    Ok(parser.rows)
}

impl Parser<'_> {
    /// The kind of the next token, `END` after the last one.
    pub fn kind(&self) -> u32 {
        self.kind_after(0)
    }

    /// The kind of the token that stands `distance` after the next one.
    pub fn kind_after(&self, distance: usize) -> u32 {
        match self.tokens.get(self.next + distance) {
            Some(found) => found.kind,
            None => token::END,
        }
    }

    /// Whether the next token has this kind.
    pub fn sees(&self, kind: u32) -> bool {
        self.kind() == kind
    }

    /// Whether the next tokens have these kinds, in this order.
    pub fn sees_all(&self, kinds: &[u32]) -> bool {
        (0..kinds.len()).all(|distance| self.kind_after(distance) == kinds[distance])
    }

    /// The bytes of the next token, which must be there.
    pub fn text(&self) -> &[u8] {
        self.tokens[self.next].text(self.source)
    }

    /// Whether the next token is an IDENT in the set N.
    pub fn sees_type_name(&self) -> bool {
        self.sees(token::IDENT) && self.names.contains(self.text())
    }

    /// The edition and the level limit of this reading.
    pub fn settings(&self) -> Settings {
        self.settings
    }

    /// Refusal 6 at the next token.
    pub fn cannot_take(&self) -> Stop {
        Stop::NoProgram(self.next)
    }

    /// Takes one token of this kind. Refusal 6 if another stands there.
    pub fn take(&mut self, kind: u32) -> Step {
        if !self.sees(kind) {
            return Err(self.cannot_take());
        }
        self.next += 1;
        Ok(())
    }

    /// Opens a row that begins at the next token, and gives its index.
    /// Refusal 6 if the next token cannot begin the row called for; refusal 7
    /// if it can and the row would stand past the level limit.
    pub fn open(&mut self, kind: u32, level: u32, can_begin: bool) -> Result<usize, Stop> {
        if level > self.settings.level_limit {
            past_the_limit(kind, can_begin);
        }
        if !can_begin {
            return Err(self.cannot_take());
        }
        if level > self.settings.level_limit {
            return Err(Stop::TooDeep(self.next));
        }
        self.rows.push(Row {
            kind,
            first: self.next,
            covered: 0,
            subtree: 0,
        });
        Ok(self.rows.len() - 1)
    }

    /// Refusal 6 where the next token begins none of the rows called for, of
    /// which this is one.
    pub fn no_row(&mut self, kind: u32, level: u32) -> Step {
        self.open(kind, level, false).map(|_| ())
    }

    /// Gives an open row another kind, where later tokens decide it.
    pub fn change_kind(&mut self, index: usize, kind: u32) {
        self.rows[index].kind = kind;
    }

    /// Closes a row: it covers the tokens taken and the rows made since it was
    /// opened.
    pub fn close(&mut self, index: usize) -> Step {
        self.rows[index].covered = self.next - self.rows[index].first;
        self.rows[index].subtree = self.rows.len() - index;
        Ok(())
    }

    /// A row of one token, without children.
    pub fn leaf(&mut self, kind: u32, level: u32, can_begin: bool) -> Step {
        let index = self.open(kind, level, can_begin)?;
        self.next += 1;
        self.close(index)
    }

    /// program = decl* EOF ;
    fn program(&mut self) -> Step {
        let level = 1;
        let index = self.open(row::PROGRAM, level, true)?;
        while asked("program: another decl", !self.sees(token::END)) {
            self.declaration(level + 1)?;
        }
        self.close(index)
    }
}
