//! A source of one class and size with its names, and lent tables that are just
//! long enough for it.

use crate::classes::Class;
use nurl::{rows_enough, tokens_enough, ROW_WIDTH, TOKEN_WIDTH};
use oracle::answer::{read, Answer};

/// What one measurement is made with. The tables are allocated and filled once,
/// and are not cleared before a call.
pub struct Prepared {
    pub source: Vec<u8>,
    pub names: Vec<u8>,
    pub tokens: Vec<u32>,
    pub rows: Vec<u32>,
}

impl Prepared {
    /// A source of the class with exactly so many bytes. It must be accepted.
    pub fn new(class: &Class, size: usize) -> Prepared {
        let source = class.source(size);
        let names = class.names();
        let mut tokens = vec![1; tokens_enough(size)];
        let mut rows = vec![1; rows_enough(size)];
        match read(&source, &names, &mut tokens, &mut rows) {
            Answer::Accepted {
                tokens: token_count,
                rows: row_count,
            } => Prepared {
                source,
                names,
                tokens: vec![1; token_count as usize * TOKEN_WIDTH],
                rows: vec![1; row_count as usize * ROW_WIDTH],
            },
            refused => panic!("{} at {size} bytes: {refused:?}", class.name),
        }
    }
}
