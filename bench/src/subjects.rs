//! The three things that are measured: the library, the independent reader, and
//! a plain pass over the bytes.

use crate::prepared::Prepared;
use std::hint::black_box;

/// What is called.
#[derive(Clone, Copy, Debug, PartialEq, Eq)]
pub enum Subject {
    Library,
    Oracle,
    Plain,
}

impl Subject {
    /// The turns in which they are measured.
    pub const TURNS: [Subject; 3] = [Subject::Library, Subject::Oracle, Subject::Plain];

    /// The subject of this name.
    pub fn named(name: &str) -> Option<Subject> {
        match name {
            "library" => Some(Subject::Library),
            "oracle" => Some(Subject::Oracle),
            "plain" => Some(Subject::Plain),
            _ => None,
        }
    }

    /// One call. A reader must accept.
    pub fn call(self, lent: &mut Prepared) {
        let source = black_box(&lent.source[..]);
        match self {
            Subject::Library => {
                let answer = nurl::read(source, &lent.names, &mut lent.tokens, &mut lent.rows);
                assert!(matches!(answer, nurl::Answer::Accepted { .. }));
            }
            Subject::Oracle => {
                use oracle::answer::{read, Answer};
                let answer = read(source, &lent.names, &mut lent.tokens, &mut lent.rows);
                assert!(matches!(answer, Answer::Accepted { .. }));
            }
            Subject::Plain => {
                black_box(sum_of_bytes(source));
            }
        }
    }
}

/// The plain pass: each byte is looked at once.
fn sum_of_bytes(source: &[u8]) -> u64 {
    source
        .iter()
        .fold(0, |sum: u64, byte| sum.wrapping_add(u64::from(*byte)))
}
