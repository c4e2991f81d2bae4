//! The two tables: how long they need be, and views of their rows.

use crate::reading::SOURCE_LIMIT;

/// Numbers in one row of the token table.
pub const TOKEN_WIDTH: usize = 3;

/// Numbers in one row of the tree table.
pub const ROW_WIDTH: usize = 4;

/// A length, in numbers, of a token table that is enough for any source of so
/// many bytes: it has at most as many tokens. A longer source than the limit is
/// refused whatever the table is.
pub fn tokens_enough(source_len: usize) -> usize {
    TOKEN_WIDTH * source_len.min(SOURCE_LIMIT)
}

/// A length, in numbers, of a tree table that is enough for any source of so
/// many bytes: it has at most two rows for each token, and one more.
pub fn rows_enough(source_len: usize) -> usize {
    ROW_WIDTH * (2 * source_len.min(SOURCE_LIMIT) + 1)
}

/// A row of the token table.
#[derive(Clone, Copy, Debug, PartialEq, Eq)]
pub struct Token {
    /// What it is: 1 name, 2 type keyword, 3 boolean, 4 `Z`, 5 INT, 6 FLOAT,
    /// 7 string, and from 8 to 42 the marks `$ & @ % : | = ; ~ { } ( ) [ ] !
    /// ^ \ ? . # * + - / < > == != <= >= << >> ?? →` in this order.
    pub kind: u32,
    /// The offset of its first byte in the source.
    pub start: u32,
    /// How many bytes it has.
    pub length: u32,
}

impl Token {
    /// The row of a token table at this index, if that is a whole row.
    pub fn at(table: &[u32], index: usize) -> Option<Token> {
        let numbers = table.chunks_exact(TOKEN_WIDTH).nth(index)?;
        Some(Token {
            kind: numbers[0],
            start: numbers[1],
            length: numbers[2],
        })
    }

    /// The token's bytes in the source that it was read from.
    pub fn text(self, source: &[u8]) -> &[u8] {
        &source[self.start as usize..][..self.length as usize]
    }
}

/// A row of the tree table. Rows stand parent first, children left to right.
#[derive(Clone, Copy, Debug, PartialEq, Eq)]
pub struct Row {
    /// What it is, from 1 to 46: see [`ROW_KINDS`](crate::ROW_KINDS).
    pub kind: u32,
    /// The index of its first token.
    pub first: u32,
    /// How many tokens it covers.
    pub covered: u32,
    /// How many rows its subtree has, with itself.
    pub subtree: u32,
}

impl Row {
    /// The row of a tree table at this index, if that is a whole row.
    pub fn at(table: &[u32], index: usize) -> Option<Row> {
        let numbers = table.chunks_exact(ROW_WIDTH).nth(index)?;
        Some(Row {
            kind: numbers[0],
            first: numbers[1],
            covered: numbers[2],
            subtree: numbers[3],
        })
    }
}
