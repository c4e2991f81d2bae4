//! From bytes to tokens: the lexical rules of grammar 1.7 as the scope fixes
//! them, and the tokeniser that fills a lent token table.

use crate::kinds::token;
use crate::settings::{Edition, BASE, SOURCE_LIMIT, TOKEN_WIDTH};

/// One token: its kind, its first byte and its length in bytes.
#[derive(Clone, Copy, Debug, PartialEq, Eq)]
pub struct Token {
    pub kind: u32,
    pub start: usize,
    pub length: usize,
}

impl Token {
    /// The bytes of the token as they stand in the source.
    pub fn text<'a>(&self, source: &'a [u8]) -> &'a [u8] {
        &source[self.start..self.start + self.length]
    }
}

/// A lexical fault: refusal 3 or 4 with its place.
#[derive(Clone, Copy, Debug, PartialEq, Eq)]
pub struct Fault {
    pub number: u32,
    pub place: usize,
}

/// What the tokeniser answers: the token count, or one of the refusals 1, 3,
/// 4 and 5 with its place.
#[derive(Clone, Copy, Debug, PartialEq, Eq)]
pub enum Tokenized {
    Tokens(u32),
    Refused(u32, u32),
}

/// Tokenises a source into a lent table. The table is changed only if the
/// answer is a token count, and then only in as many rows as there are tokens.
pub fn tokenize(source: &[u8], table: &mut [u32]) -> Tokenized {
    if source.len() > SOURCE_LIMIT {
        return Tokenized::Refused(1, 0);
    }
    let tokens = match scan(source, BASE.edition) {
        Ok(tokens) => tokens,
        Err(fault) => return Tokenized::Refused(fault.number, fault.place as u32),
    };
    if tokens.len() > table.len() / TOKEN_WIDTH {
        return Tokenized::Refused(5, tokens.len() as u32);
    }
    fill_token_table(&tokens, table);
    Tokenized::Tokens(tokens.len() as u32)
}

/// Writes the tokens into the first rows of a table that has room for them.
pub fn fill_token_table(tokens: &[Token], table: &mut [u32]) {
    for (index, token) in tokens.iter().enumerate() {
        let numbers = [token.kind, token.start as u32, token.length as u32];
        let first = index * TOKEN_WIDTH;
        table[first..first + TOKEN_WIDTH].copy_from_slice(&numbers);
    }
}

/// All tokens of a source of any length, or the first fault met in it.
pub fn scan(source: &[u8], edition: Edition) -> Result<Vec<Token>, Fault> {
    let mut tokens = Vec::new();
    let mut at = 0;
    while at < source.len() {
        let skipped = skipped_length(source, at);
        if skipped > 0 {
            at += skipped;
            continue;
        }
        let (kind, length) = token_at(source, at, edition)?;
        tokens.push(Token {
            kind,
            start: at,
            length,
        });
        at += length;
    }
    Ok(tokens)
}

/// "Skipped: bytes 32, 9, 10, 13; `//` up to byte 10 or the end." The length
/// of what is skipped at a place, 0 if nothing is.
fn skipped_length(source: &[u8], at: usize) -> usize {
    if matches!(source[at], 32 | 9 | 10 | 13) {
        return 1;
    }
    if !source[at..].starts_with(b"//") {
        return 0;
    }
    let mut end = at;
    while end < source.len() && source[end] != 10 {
        end += 1;
    }
    end - at
}

/// The kind and length of the token that begins at a place.
pub fn token_at(source: &[u8], at: usize, edition: Edition) -> Result<(u32, usize), Fault> {
    if begins_word(source[at]) {
        return Ok(word_at(source, at));
    }
    if let Some(number) = number_at(source, at, edition) {
        return Ok(number);
    }
    if source[at] == b'`' {
        return string_at(source, at);
    }
    match mark_at(source, at, edition) {
        Some(mark) => Ok(mark),
        None => Err(Fault {
            number: 3,
            place: at,
        }),
    }
}

/// "Word: an ASCII letter or `_`, ..."
fn begins_word(byte: u8) -> bool {
    byte.is_ascii_alphabetic() || byte == b'_'
}

/// "... then letters, digits, `_`, as long as possible." The place after the
/// word that begins at `at`.
fn word_end(source: &[u8], at: usize) -> usize {
    let mut end = at;
    while end < source.len() && (begins_word(source[end]) || source[end].is_ascii_digit()) {
        end += 1;
    }
    end
}

/// "`i u f b s v` alone are type keywords, `T F` booleans, `Z` sizeof; every
/// other word is an IDENT."
fn word_kind(word: &[u8]) -> u32 {
    match word {
        b"i" | b"u" | b"f" | b"b" | b"s" | b"v" => token::KEYWORD,
        b"T" | b"F" => token::BOOLEAN,
        b"Z" => token::SIZEOF,
        _ => token::IDENT,
    }
}

/// A word, or several words that are IDENTs joined by `::` into one IDENT.
fn word_at(source: &[u8], at: usize) -> (u32, usize) {
    let mut end = word_end(source, at);
    let kind = word_kind(&source[at..end]);
    if kind == token::IDENT {
        while let Some(joined_end) = joined_word_end(source, end) {
            end = joined_end;
        }
    }
    (kind, end - at)
}

/// "An IDENT followed at once by `::` and at once by another word that is an
/// IDENT joins it into one token, repeatedly." The place after that other
/// word, for an IDENT that ends at `at`; nothing if it is not so.
fn joined_word_end(source: &[u8], at: usize) -> Option<usize> {
    if !source[at..].starts_with(b"::") {
        return None;
    }
    let start = at + 2;
    if start == source.len() || !begins_word(source[start]) {
        return None;
    }
    let end = word_end(source, start);
    if word_kind(&source[start..end]) == token::IDENT {
        Some(end)
    } else {
        None
    }
}

/// "INT: digits, with a `-` taken in front when a digit follows it at once.
/// FLOAT: the same, a point, digits, then `e` or `E`, an optional sign and
/// digits if all of that is there."
fn number_at(source: &[u8], at: usize, edition: Edition) -> Option<(u32, usize)> {
    let mut digits = at;
    if source[at] == b'-' && edition.minus_joins_number() {
        digits += 1;
    }
    let whole_end = digits_end(source, digits)?;
    match fraction_end(source, whole_end) {
        None => Some((token::INT, whole_end - at)),
        Some(fraction_end) => {
            let end = exponent_end(source, fraction_end).unwrap_or(fraction_end);
            Some((token::FLOAT, end - at))
        }
    }
}

/// The place after one or more digits that begin at `at`, nothing if there is
/// no digit there.
fn digits_end(source: &[u8], at: usize) -> Option<usize> {
    let mut end = at;
    while end < source.len() && source[end].is_ascii_digit() {
        end += 1;
    }
    if end > at {
        Some(end)
    } else {
        None
    }
}

/// The place after a point and digits.
fn fraction_end(source: &[u8], at: usize) -> Option<usize> {
    if at < source.len() && source[at] == b'.' {
        digits_end(source, at + 1)
    } else {
        None
    }
}

/// The place after `e` or `E`, an optional sign and digits.
fn exponent_end(source: &[u8], at: usize) -> Option<usize> {
    if at == source.len() || !matches!(source[at], b'e' | b'E') {
        return None;
    }
    let mut digits = at + 1;
    if digits < source.len() && matches!(source[digits], b'+' | b'-') {
        digits += 1;
    }
    digits_end(source, digits)
}

/// "STR: backtick to next backtick, any bytes." Refusal 4 at the opening
/// backtick if there is no next one.
fn string_at(source: &[u8], at: usize) -> Result<(u32, usize), Fault> {
    let mut end = at + 1;
    while end < source.len() {
        if source[end] == b'`' {
            return Ok((token::STR, end + 1 - at));
        }
        end += 1;
    }
    Err(Fault {
        number: 4,
        place: at,
    })
}

/// "Marks: the longest that fits. `→` is the bytes E2 86 92."
fn mark_at(source: &[u8], at: usize, edition: Edition) -> Option<(u32, usize)> {
    let mut longest: Option<(u32, usize)> = None;
    for (index, mark) in token::MARKS.iter().enumerate() {
        let kind = token::FIRST_MARK + index as u32;
        if is_shift(kind) && !edition.has_shift_marks() {
            continue;
        }
        let best = longest.map_or(0, |(_, length)| length);
        if mark.len() > best && source[at..].starts_with(mark.as_bytes()) {
            longest = Some((kind, mark.len()));
        }
    }
    longest
}

fn is_shift(kind: u32) -> bool {
    kind == token::SHIFT_LEFT || kind == token::SHIFT_RIGHT
}
