//! What the tests share: reading into tables that were filled with a pattern.

use nurl::{read, Answer};

/// An answer and both tables as they are afterwards.
pub struct Reading {
    pub answer: Answer,
    pub tokens: Vec<u32>,
    pub rows: Vec<u32>,
}

/// Reads with tables of these lengths, in numbers, that hold the pattern.
pub fn read_into(source: &[u8], names: &[u8], lengths: (usize, usize)) -> Reading {
    let mut tokens = with_rest(&[], lengths.0);
    let mut rows = with_rest(&[], lengths.1);
    let answer = read(source, names, &mut tokens, &mut rows);
    Reading {
        answer,
        tokens,
        rows,
    }
}

/// A table of this length that begins with these numbers and has the pattern
/// after them: number `i` is 3,000,000,000 + `i`, which no table ever holds.
pub fn with_rest(first: &[u32], length: usize) -> Vec<u32> {
    let pattern = (0..length as u32).map(|index| 3_000_000_000 + index);
    let mut table: Vec<u32> = pattern.collect();
    table[..first.len()].copy_from_slice(first);
    table
}
