//! Small changes to a token list or to the bytes of a source, by which a valid
//! program becomes another one or none.

use super::vocabulary::{any_token, Text};
use crate::random::Random;

/// A change to a token list.
#[derive(Clone, Copy, Debug, PartialEq, Eq)]
pub enum TokenChange {
    Deleted,
    Inserted,
    Replaced,
    Doubled,
    Swapped,
    CutOff,
}

pub const TOKEN_CHANGES: [TokenChange; 6] = [
    TokenChange::Deleted,
    TokenChange::Inserted,
    TokenChange::Replaced,
    TokenChange::Doubled,
    TokenChange::Swapped,
    TokenChange::CutOff,
];

/// Changes a token list at a random place. An empty list only gets a token.
pub fn change_tokens(tokens: &mut Vec<Text>, change: TokenChange, random: &mut Random) {
    if tokens.is_empty() {
        tokens.push(any_token(random));
        return;
    }
    let place = random.below(tokens.len());
    match change {
        TokenChange::Deleted => {
            tokens.remove(place);
        }
        TokenChange::Inserted => tokens.insert(place, any_token(random)),
        TokenChange::Replaced => tokens[place] = any_token(random),
        TokenChange::Doubled => tokens.insert(place, tokens[place]),
        TokenChange::Swapped => {
            let next = (place + 1).min(tokens.len() - 1);
            tokens.swap(place, next);
        }
        TokenChange::CutOff => tokens.truncate(place),
    }
}

/// A change to the bytes of a source.
#[derive(Clone, Copy, Debug, PartialEq, Eq)]
pub enum ByteChange {
    Deleted,
    Inserted,
    Replaced,
    CutOff,
}

pub const BYTE_CHANGES: [ByteChange; 4] = [
    ByteChange::Deleted,
    ByteChange::Inserted,
    ByteChange::Replaced,
    ByteChange::CutOff,
];

/// The bytes that mean something to the tokeniser, and some that do not.
pub const BYTES_OF_INTEREST: &[u8] =
    b"aeEiTZ_x019--..++::/`\\ \t\n\r=!<>?|()[]{}#~^$&@%;*,\xE2\x86\x92\x00\xFF";

/// Changes the bytes of a source at a random place. An empty source only gets
/// a byte.
pub fn change_bytes(source: &mut Vec<u8>, change: ByteChange, random: &mut Random) {
    let byte = random.pick(BYTES_OF_INTEREST);
    if source.is_empty() {
        source.push(byte);
        return;
    }
    let place = random.below(source.len());
    match change {
        ByteChange::Deleted => {
            source.remove(place);
        }
        ByteChange::Inserted => source.insert(place, byte),
        ByteChange::Replaced => source[place] = byte,
        ByteChange::CutOff => source.truncate(place),
    }
}
