//! One test case of a whole reading: how it is written to the input file of a
//! test program, and the output that program must print for it.

use crate::answer::{read, Answer};
use crate::desk::line_of;
use crate::names::{check_names, TypeNames};
use crate::parser::parse;
use crate::settings::{BASE, ROW_WIDTH, SOURCE_LIMIT, TOKEN_WIDTH};
use crate::tokens::scan;

/// The limits of the test program that reads the case file. Only the cases of
/// large sources have a token table of more than `LONGEST_TOKEN_TABLE`.
pub const LONGEST_PIECE: usize = 70_000;
pub const LONGEST_SOURCE: usize = SOURCE_LIMIT + 1;
pub const LONGEST_NAME_LIST: usize = 16_385;
pub const LONGEST_TOKEN_TABLE: usize = 9_000;
pub const LARGE_TOKEN_TABLE: usize = 750_000;
pub const LONGEST_TREE_TABLE: usize = 12_000;
pub const LONGEST_FILE: usize = 1_400_000;

/// A table of more numbers is printed as its digest.
pub const LONGEST_PRINTED_TABLE: usize = 12_000;

/// The digest of a table is a number below this one.
pub const DIGEST_MODULUS: u64 = 4_294_967_291;

/// Number `i` of the token table holds this plus `i` before the reading.
pub const TOKEN_PATTERN: u32 = 900_000;

/// Number `i` of the tree table holds this plus `i` before the reading.
pub const TREE_PATTERN: u32 = 700_000;

/// A source, made of a piece repeated, with a name list and the lengths of the
/// two tables in numbers.
#[derive(Clone, Debug, PartialEq, Eq)]
pub struct Case {
    pub piece: Vec<u8>,
    pub repeats: usize,
    pub names: Vec<u8>,
    pub token_length: usize,
    pub tree_length: usize,
}

impl Case {
    /// A source that stands once, without extra names, with room for its
    /// tokens and rows, for one row more, and for some numbers past the last
    /// whole rows.
    pub fn new(source: impl AsRef<[u8]>) -> Case {
        Case::with_names(source, "")
    }

    /// The same with a list of extra names.
    pub fn with_names(source: impl AsRef<[u8]>, list: impl AsRef<[u8]>) -> Case {
        let piece = source.as_ref().to_vec();
        let names = list.as_ref().to_vec();
        let needed = Needed::of(&piece, &names);
        // One or two stray numbers, and one to three, by the source's length.
        let token_length = (needed.tokens + 1) * TOKEN_WIDTH + 1 + piece.len() % 2;
        let tree_length = (needed.rows + 1) * ROW_WIDTH + 1 + piece.len() % 3;
        Case {
            piece,
            repeats: 1,
            names,
            token_length,
            tree_length,
        }
    }

    /// The same with a token table of this many numbers.
    pub fn token_table(mut self, length: usize) -> Case {
        self.token_length = length;
        self
    }

    /// The same with a tree table of this many numbers.
    pub fn tree_table(mut self, length: usize) -> Case {
        self.tree_length = length;
        self
    }

    /// The same with this list of extra names and the same tables.
    pub fn names(mut self, list: impl AsRef<[u8]>) -> Case {
        self.names = list.as_ref().to_vec();
        self
    }

    /// The same with the piece standing so many times and the same tables.
    pub fn repeated(mut self, repeats: usize) -> Case {
        self.repeats = repeats;
        self
    }

    /// The whole source.
    pub fn source(&self) -> Vec<u8> {
        self.piece.repeat(self.repeats)
    }

    /// The token table before the reading.
    pub fn tokens_before(&self) -> Vec<u32> {
        pattern(TOKEN_PATTERN, self.token_length)
    }

    /// The tree table before the reading.
    pub fn tree_before(&self) -> Vec<u32> {
        pattern(TREE_PATTERN, self.tree_length)
    }

    /// The case as it stands in the input file.
    pub fn input(&self) -> Vec<u8> {
        let header = format!(
            "{} {} {} {} {}\n",
            self.piece.len(),
            self.repeats,
            self.names.len(),
            self.token_length,
            self.tree_length
        );
        let mut bytes = header.into_bytes();
        bytes.extend_from_slice(&self.piece);
        bytes.extend_from_slice(&self.names);
        bytes.push(10);
        bytes
    }

    /// The answer and both tables afterwards, the token table first.
    pub fn run(&self) -> (Answer, Vec<u32>, Vec<u32>) {
        let mut tokens = self.tokens_before();
        let mut tree = self.tree_before();
        let answer = read(&self.source(), &self.names, &mut tokens, &mut tree);
        (answer, tokens, tree)
    }

    /// What the test program must print for this case.
    pub fn output(&self) -> String {
        let (answer, tokens, tree) = self.run();
        let first_line = match answer {
            Answer::Accepted { tokens, rows } => format!("accepted {tokens} {rows}\n"),
            Answer::Refused { number, place } => format!("refused {number} {place}\n"),
        };
        let tokens = table_text(&tokens, &self.tokens_before(), TOKEN_WIDTH);
        let tree = table_text(&tree, &self.tree_before(), ROW_WIDTH);
        format!("{first_line}{tokens}tree\n{tree}")
    }
}

/// A table in which number `i` holds `first` plus `i`.
fn pattern(first: u32, length: usize) -> Vec<u32> {
    (0..length as u32).map(|index| first + index).collect()
}

/// The rows that a reading of a source needs in both tables.
#[derive(Clone, Copy, Debug, PartialEq, Eq)]
pub struct Needed {
    /// The number of tokens, 0 if the source has a fault.
    pub tokens: usize,
    /// The number of tree rows, 1 if there is no derivation.
    pub rows: usize,
}

impl Needed {
    /// What a source with a list of extra names needs.
    pub fn of(source: &[u8], names: &[u8]) -> Needed {
        let Ok(tokens) = scan(source, BASE.edition) else {
            return Needed { tokens: 0, rows: 1 };
        };
        let list = match check_names(names) {
            None => names,
            Some(_) => b"",
        };
        let type_names = TypeNames::collect(source, &tokens, list, BASE.edition);
        let rows = parse(source, &tokens, &type_names, BASE).map_or(1, |rows| rows.len());
        Needed {
            tokens: tokens.len(),
            rows,
        }
    }

    /// The length in numbers of a token table with exactly room.
    pub fn token_length(self) -> usize {
        self.tokens * TOKEN_WIDTH
    }

    /// The length in numbers of a tree table with exactly room.
    pub fn tree_length(self) -> usize {
        self.rows * ROW_WIDTH
    }
}

/// A table as it is printed: its digest if it is long, else its rows.
fn table_text(table: &[u32], before: &[u32], width: usize) -> String {
    if table.len() > LONGEST_PRINTED_TABLE {
        format!("digest {}\n", digest(table))
    } else {
        rows_text(table, before, width)
    }
}

/// One number for a whole table: 0, and for each number in order the digest so
/// far times 31 plus that number, modulo `DIGEST_MODULUS`.
fn digest(table: &[u32]) -> u64 {
    table.iter().fold(0, |digest, number| {
        (digest * 31 + u64::from(*number)) % DIGEST_MODULUS
    })
}

/// Each whole row on a line, where the unchanged rows at the end of the whole
/// rows, or else the zero rows there, are one line with their number; and the
/// numbers past the last whole row on a last line.
fn rows_text(table: &[u32], before: &[u32], width: usize) -> String {
    let rows: Vec<&[u32]> = table.chunks_exact(width).collect();
    let rows_before: Vec<&[u32]> = before.chunks_exact(width).collect();
    let unchanged = rows_at_end(&rows, |index| rows[index] == rows_before[index]);
    let zero = rows_at_end(&rows, |index| rows[index].iter().all(|number| *number == 0));
    let (word, count) = if unchanged > 0 {
        ("unchanged", unchanged)
    } else {
        ("zero", zero)
    };
    let mut text = String::new();
    for row in &rows[..rows.len() - count] {
        text.push_str(&line_of(row));
    }
    if count > 0 {
        text.push_str(&format!("{word} {count}\n"));
    }
    let rest = &table[rows.len() * width..];
    if !rest.is_empty() {
        text.push_str(&line_of(rest));
    }
    text
}

/// How many rows at the end are as asked for.
fn rows_at_end(rows: &[&[u32]], is_so: impl Fn(usize) -> bool) -> usize {
    (0..rows.len()).rev().take_while(|row| is_so(*row)).count()
}

#[cfg(test)]
mod tests {
    use super::*;

    #[test]
    fn a_case_is_written_as_the_format_says() {
        let case = Case::new("a :").names("Ab\nc").repeated(2);
        let case = case.token_table(10).tree_table(7);
        assert_eq!(case.input(), b"3 2 4 10 7\na :Ab\nc\n");
        let case = Case::new("").token_table(0).tree_table(0);
        assert_eq!(case.input(), b"0 1 0 0 0\n\n");
    }

    #[test]
    fn a_case_has_room_and_stray_numbers() {
        let case = Case::new(": i a 1");
        assert_eq!((case.token_length, case.tree_length), (17, 22));
        let case = Case::new("");
        assert_eq!((case.token_length, case.tree_length), (4, 9));
        let case = Case::with_names("@ g → v { : Foo x 1 }", "Foo");
        assert_eq!(
            case.run().0,
            Answer::Accepted {
                tokens: 10,
                rows: 7
            }
        );
    }

    #[test]
    fn a_long_table_is_printed_as_its_digest() {
        let mut table = vec![0; LONGEST_PRINTED_TABLE + 1];
        table[LONGEST_PRINTED_TABLE - 2] = 3;
        table[LONGEST_PRINTED_TABLE - 1] = 5;
        table[LONGEST_PRINTED_TABLE] = 7;
        assert_eq!(table_text(&table, &table, 3), "digest 3045\n");
        let shorter = &table[1..];
        assert_eq!(table_text(shorter, shorter, 3), "unchanged 4000\n");
        table[0] = u32::MAX;
        table[1] = 1;
        // 4,294,967,295 is 4 modulo 4,294,967,291, and 4 times 31 plus 1 is 125.
        assert_eq!(digest(&table[..1]), 4);
        assert_eq!(digest(&table[..2]), 125);
        assert_eq!(digest(&table[..8]), 125 * 31_u64.pow(6) % DIGEST_MODULUS);
    }

    #[test]
    fn unchanged_rows_come_before_zero_rows() {
        let before = [7, 8, 9, 10, 11];
        assert_eq!(
            table_text(&[0, 0, 9, 10, 11], &before, 2),
            "0 0\nunchanged 1\n11\n"
        );
        assert_eq!(table_text(&[0, 0, 0, 0, 11], &before, 2), "zero 2\n11\n");
        assert_eq!(table_text(&[1, 0, 0, 0], &before[..4], 2), "1 0\nzero 1\n");
        assert_eq!(table_text(&[7, 8, 0, 1], &before[..4], 2), "7 8\n0 1\n");
        assert_eq!(table_text(&[], &[], 2), "");
        assert_eq!(table_text(&[7], &[7], 2), "7\n");
    }
}
