//! One input given to both readers: the answers and the whole tables must be
//! the same, and nothing may be written beside a table.

use crate::cases::Case;
use nurl::Answer;
use std::fmt;

/// A reader: source, names, token table, tree table.
type Read = fn(&[u8], &[u8], &mut [u32], &mut [u32]) -> Answer;

/// What a reader answered, and the lent tables afterwards with their margins.
#[derive(Clone, Debug, PartialEq, Eq)]
pub struct Outcome {
    pub answer: Answer,
    tokens: Vec<u32>,
    rows: Vec<u32>,
}

/// An input on which the readers differ.
pub struct Difference {
    case: Case,
    library: Outcome,
    oracle: Outcome,
}

/// The answer of both readers, if they agree in everything.
pub fn compare(case: &Case) -> Result<Answer, Box<Difference>> {
    let library = outcome(case, nurl::read);
    let oracle = outcome(case, independent_read);
    if library == oracle {
        return Ok(library.answer);
    }
    Err(Box::new(Difference {
        case: case.clone(),
        library,
        oracle,
    }))
}

/// The independent reader, with its answer in the library's words.
fn independent_read(source: &[u8], names: &[u8], tokens: &mut [u32], rows: &mut [u32]) -> Answer {
    match oracle::answer::read(source, names, tokens, rows) {
        oracle::answer::Answer::Accepted { tokens, rows } => Answer::Accepted { tokens, rows },
        oracle::answer::Answer::Refused { number, place } => Answer::Refused { number, place },
    }
}

/// Numbers before and after each lent table, which no reader may touch.
const MARGIN: usize = 8;

/// What a table and its margins hold first: no reader ever writes such numbers.
const TOKEN_PATTERN: u32 = 0xA000_0000;
const ROW_PATTERN: u32 = 0xB000_0000;

/// A source or list of names is shown whole up to so many bytes. Longer ones are
/// large inputs, which their number tells.
const SHOWN: usize = 20_000;

/// Calls a reader with tables that hold a pattern.
fn outcome(case: &Case, read: Read) -> Outcome {
    let mut tokens = pattern(TOKEN_PATTERN, case.tokens);
    let mut rows = pattern(ROW_PATTERN, case.rows);
    let token_table = &mut tokens[MARGIN..][..case.tokens];
    let tree_table = &mut rows[MARGIN..][..case.rows];
    let answer = read(&case.source, &case.names, token_table, tree_table);
    Outcome {
        answer,
        tokens,
        rows,
    }
}

/// So many numbers and two margins, each of them another number.
fn pattern(first: u32, length: usize) -> Vec<u32> {
    (first..).take(length + 2 * MARGIN).collect()
}

impl fmt::Display for Difference {
    fn fmt(&self, out: &mut fmt::Formatter) -> fmt::Result {
        let case = &self.case;
        writeln!(out, "library: {:?}", self.library.answer)?;
        writeln!(out, "oracle:  {:?}", self.oracle.answer)?;
        write_first(out, "token", &self.library.tokens, &self.oracle.tokens)?;
        write_first(out, "tree", &self.library.rows, &self.oracle.rows)?;
        writeln!(out, "tables of {} and {} numbers", case.tokens, case.rows)?;
        write_bytes(out, "names", &case.names)?;
        write_bytes(out, "source", &case.source)
    }
}

/// Bytes as numbers and as text: all of them, or those at the front of many.
fn write_bytes(out: &mut fmt::Formatter, title: &str, bytes: &[u8]) -> fmt::Result {
    let shown = &bytes[..bytes.len().min(SHOWN)];
    writeln!(out, "{title}, {} of {} bytes:", shown.len(), bytes.len())?;
    writeln!(out, "{shown:?}")?;
    writeln!(out, "{}", String::from_utf8_lossy(shown))
}

/// The first number in which two tables differ, if there is one.
fn write_first(
    out: &mut fmt::Formatter,
    table: &str,
    library: &[u32],
    oracle: &[u32],
) -> fmt::Result {
    let Some(at) = (0..library.len()).find(|at| library[*at] != oracle[*at]) else {
        return writeln!(out, "{table} tables: the same");
    };
    // Negative before the table, at least its length after it.
    let index = at as i64 - MARGIN as i64;
    let (library, oracle) = (library[at], oracle[at]);
    writeln!(
        out,
        "{table} tables: number {index} is {library} in the library's, {oracle} in the oracle's"
    )
}
