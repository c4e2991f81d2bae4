//! Cases of the longest sources that a reader must pass quickly: each is full
//! of one thing.

use crate::cases::{Case, Needed, LARGE_TOKEN_TABLE};
use crate::settings::{BASE, SOURCE_LIMIT, TOKEN_WIDTH};
use crate::tokens::scan;

/// The length of a piece, and how many times it makes the source.
const PIECE: usize = 65_536;
const TIMES: usize = SOURCE_LIMIT / PIECE;

/// The rows of the token table that stay free, and its numbers past the last
/// whole row.
const FREE_ROWS: usize = 3;
const STRAY: usize = 2;

/// The most tokens in a piece for which the token table is long enough.
const PIECE_TOKENS: usize = ((LARGE_TOKEN_TABLE - STRAY) / TOKEN_WIDTH - FREE_ROWS) / TIMES;

/// 2,999 rows and three numbers, too few for most of the sources.
const TREE_TABLE: usize = 11_999;

/// One source of each kind.
pub fn sources() -> Vec<Case> {
    let pieces = [lets(), variants(), comments(), strings(), nested_blocks()];
    pieces.into_iter().map(large_case).collect()
}

/// The piece repeated, with a token table that has room for all tokens.
fn large_case(piece: Vec<u8>) -> Case {
    let rows = Needed::of(&piece, b"").tokens * TIMES + FREE_ROWS;
    let case = Case::new(piece).repeated(TIMES);
    case.token_table(rows * TOKEN_WIDTH + STRAY)
        .tree_table(TREE_TABLE)
}

/// A piece: the front, as many items as there is room for, the end, and spaces.
fn filled(front: &[u8], items: impl Iterator<Item = Vec<u8>>, end: &[u8]) -> Vec<u8> {
    let mut piece = front.to_vec();
    let mut tokens = token_count(front) + token_count(end);
    for item in items {
        tokens += token_count(&item);
        if piece.len() + item.len() + end.len() > PIECE || tokens > PIECE_TOKENS {
            break;
        }
        piece.extend(item);
    }
    piece.extend(end);
    piece.resize(PIECE, b' ');
    piece
}

fn token_count(text: &[u8]) -> usize {
    scan(text, BASE.edition).map_or(0, |tokens| tokens.len())
}

/// Lets, every second one with a type. The types stand in front of the
/// functions, and each function has 200 lets.
fn lets() -> Vec<u8> {
    let types: String = (b'a'..=b'z')
        .map(|letter| format!(":K{} {{}}\n", char::from(letter)))
        .collect();
    let function = "@ g → v {\n";
    let items = (0..).map(|index| {
        let letter = char::from(b'a' + (index % 26) as u8);
        let ended = if index > 0 && index % 100 == 0 {
            format!("}}\n{function}")
        } else {
            String::new()
        };
        let (first, second) = (name(2 * index, 9), name(2 * index + 1, 9));
        format!("{ended}:K{letter} {first} 1\n:{second} 2\n").into_bytes()
    });
    filled(format!("{types}{function}").as_bytes(), items, b"}\n")
}

/// One enum of variants with names of three letters.
fn variants() -> Vec<u8> {
    let items = (0..).map(|index| format!("{} ", name(index, 3)).into_bytes());
    filled(b":|Kind {\n", items, b"}\n")
}

/// The letters that are names when they stand alone.
const LETTERS: &[u8; 43] = b"acdeghjklmnopqrtwxyzABCDEGHIJKLMNOPQRSUVWXY";

/// The name of so many letters that has this number.
fn name(number: usize, letters: u32) -> String {
    let places = (0..letters).map(|place| LETTERS.len().pow(place));
    let letters = places.map(|place| LETTERS[number / place % LETTERS.len()]);
    letters.map(char::from).collect()
}

/// Constants with comments of each length up to 255 bytes, and a long comment.
fn comments() -> Vec<u8> {
    let items = (0..256).map(|length| {
        let comment = all_bytes_but(b'\n', length);
        [b": i a 1 //", &comment[..], b"\n"].concat()
    });
    let end = [b"//", &all_bytes_but(b'\n', 30_000)[..], b"\n"].concat();
    filled(b"", items, &end)
}

/// Constants with strings of each length up to 255 bytes, and a long string.
fn strings() -> Vec<u8> {
    let constant = |length| {
        let string = all_bytes_but(b'`', length);
        [b": s a `", &string[..], b"`\n"].concat()
    };
    filled(b"", (0..256).map(constant), &constant(30_000))
}

/// So many bytes: all values but one, again and again, from a value that
/// depends on the length.
fn all_bytes_but(left_out: u8, length: usize) -> Vec<u8> {
    let values = (0..=255u8).cycle().skip(length % 256);
    let kept = values.filter(|value| *value != left_out);
    kept.take(length).collect()
}

/// Functions with a body in which blocks are nested: the innermost stands at
/// level 190, and the body at level 3.
fn nested_blocks() -> Vec<u8> {
    let (open, close) = ("{    ".repeat(188), "}    ".repeat(188));
    let function = format!("@ g → v {open}{close}\n").into_bytes();
    filled(b"", std::iter::repeat(function), b"")
}
