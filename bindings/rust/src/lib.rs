//! A reader of NURL source (grammar 1.7): bytes in, a table of tokens, a flat
//! tree and an answer out. The reader itself is the static library libnurl.a;
//! this crate is a safe call of it, and views of the two tables' rows. The
//! repository's docs/LANGUAGE.md explains the language and its trees, and
//! docs/REFUSALS.md each refusal.
//!
//! # Example
//!
//! ```
//! use nurl::{read, rows_enough, tokens_enough, Answer, Row, Token};
//!
//! let source = b": i floor -40";
//! let mut tokens = vec![0; tokens_enough(source.len())];
//! let mut rows = vec![0; rows_enough(source.len())];
//!
//! let answer = read(source, b"", &mut tokens, &mut rows);
//! assert_eq!(answer, Answer::Accepted { tokens: 4, rows: 4 });
//!
//! let last = Token::at(&tokens, 3).unwrap();
//! assert_eq!(last.text(source), b"-40");
//! let constant = Row { kind: 9, first: 0, covered: 4, subtree: 3 };
//! assert_eq!(Row::at(&rows, 1), Some(constant));
//! ```

mod kinds;
mod reading;
mod tables;

pub use kinds::ROW_KINDS;
pub use reading::{read, Answer, NAMES_LIMIT, SOURCE_LIMIT};
pub use tables::{rows_enough, tokens_enough, Row, Token, ROW_WIDTH, TOKEN_WIDTH};
