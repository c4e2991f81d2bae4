//! The call of the reader and its answer.

/// The longest source that is read, in bytes.
pub const SOURCE_LIMIT: usize = 1_048_576;

/// The longest list of extra type names, in bytes.
pub const NAMES_LIMIT: usize = 16_384;

extern "C" {
    fn nurl_read(
        source: *const u8,
        source_len: usize,
        names: *const u8,
        names_len: usize,
        tokens: *mut u32,
        tokens_len: usize,
        rows: *mut u32,
        rows_len: usize,
        answer: *mut u32,
    );
}

/// What a reading answers.
#[derive(Clone, Copy, Debug, PartialEq, Eq)]
pub enum Answer {
    /// The source is a program. The first `tokens` rows of the token table and
    /// the first `rows` rows of the tree table are filled; all other numbers
    /// are as they were.
    Accepted { tokens: u32, rows: u32 },
    /// The source is refused.
    ///
    /// | Number | Given when | Place |
    /// |---|---|---|
    /// | 1 | the source is over [`SOURCE_LIMIT`] | 0 |
    /// | 2 | the names are over [`NAMES_LIMIT`], or an entry is not exactly one name | 0, or the first byte of the earliest such entry |
    /// | 3 | a byte begins no token | its offset |
    /// | 4 | a string is not closed | the offset of its opening backtick |
    /// | 5 | there are more tokens than whole rows in the token table | the tokens needed |
    /// | 6 | the tokens are not a program | a token's index, or the token count at the end |
    /// | 7 | the tree is deeper than 200 levels | a token's index |
    /// | 8 | there are more tree rows than whole rows in the tree table | the rows needed |
    ///
    /// On 1 to 5 both tables are as they were. On 6 to 8 the token table is
    /// filled as on acceptance, and all whole rows of the tree table are zero.
    Refused { number: u32, place: u32 },
}

/// Reads a source into the two lent tables.
///
/// `names` has extra type names (those of imported types), separated by one
/// byte 10, and is empty if there are none. `tokens` has [`TOKEN_WIDTH`]
/// numbers a row and `rows` has [`ROW_WIDTH`]; numbers past the last whole row
/// are never touched. Nothing has to be checked first: every input gets an
/// answer.
///
/// The call allocates nothing and takes at most about 256 KiB of stack.
///
/// ```
/// // A source that is not accepted: the minus stands apart from its number.
/// let answer = nurl::read(b": i floor - 40", b"", &mut [0; 15], &mut []);
/// assert_eq!(answer, nurl::Answer::Refused { number: 6, place: 3 });
/// ```
///
/// [`TOKEN_WIDTH`]: crate::TOKEN_WIDTH
/// [`ROW_WIDTH`]: crate::ROW_WIDTH
pub fn read(source: &[u8], names: &[u8], tokens: &mut [u32], rows: &mut [u32]) -> Answer {
    let mut answer = [0; 3];
    // SAFETY: slices give pointers that are not null, are aligned, and are
    // valid for their lengths; those that are written are borrowed by this
    // call alone, so they overlap nothing. No pointer is kept.
    unsafe {
        nurl_read(
            source.as_ptr(),
            source.len(),
            names.as_ptr(),
            names.len(),
            tokens.as_mut_ptr(),
            tokens.len(),
            rows.as_mut_ptr(),
            rows.len(),
            answer.as_mut_ptr(),
        );
    }
    match answer {
        [0, tokens, rows] => Answer::Accepted { tokens, rows },
        [number, place, _] => Answer::Refused { number, place },
    }
}
