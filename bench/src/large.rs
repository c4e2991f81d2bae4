//! Inputs at the limits: sources of 1,048,576 bytes and one more, longer
//! programs, and nesting about the level limit, each with several table lengths.

use crate::cases::Case;
use crate::classes::Class;
use nurl::{rows_enough, tokens_enough, NAMES_LIMIT, SOURCE_LIMIT};
use oracle::generate::program;

/// How many there are: each source with each of the table lengths.
pub const COUNT: u64 = SOURCES * ROOMS;

/// How many sources there are of each form.
const LONG: u64 = 20;
const PROGRAMS: u64 = 4;
const DEEP: u64 = (CONSTRUCTS.len() * TIMES.len()) as u64;
const SOURCES: u64 = LONG + PROGRAMS + DEEP;

/// Enough room, too few token rows, too few tree rows.
const ROOMS: u64 = 3;

/// The large input of this number. Past the last they come again, with other
/// programs; the seed tells the programs apart too.
pub fn case(seed: u64, number: u64) -> Case {
    let place = number % SOURCES;
    let source = if place < LONG {
        long(place)
    } else if place < LONG + PROGRAMS {
        program(
            seed.wrapping_add(number),
            25_000 * (1 + number % PROGRAMS) as usize,
        )
    } else {
        deep((place - LONG - PROGRAMS) as usize)
    };
    let room = number / SOURCES % ROOMS;
    let (tokens, rows) = (tokens_enough(source.len()), rows_enough(source.len()));
    Case {
        source,
        names: vec![b'N'; NAMES_LIMIT],
        tokens: if room == 1 { tokens / 20 } else { tokens },
        rows: if room == 2 { rows / 40 } else { rows },
    }
}

/// A source at the limit, or one byte past it, of one of ten forms.
fn long(number: u64) -> Vec<u8> {
    let size = SOURCE_LIMIT + (number % 2) as usize;
    let class = |name: &str| Class::named(name).expect("a class").source(size);
    match number / 2 {
        0 => vec![b'\n'; size],
        1 => framed(b"//", b',', b"", size),
        2 => framed(b": s a `", b',', b"`", size),
        3 => framed(b": s a `", b' ', b"", size),
        4 => framed(b"", b'a', b"", size),
        5 => framed(b": i a -", b'7', b"", size),
        6 => framed(b"@ g \xE2\x86\x92 v { ", b';', b"", size),
        7 => class("typical"),
        8 => class("token-dense"),
        _ => framed(b"", b' ', b",", size),
    }
}

/// The first bytes, one byte as often as needed, and the last bytes.
fn framed(first: &[u8], filler: u8, last: &[u8], size: usize) -> Vec<u8> {
    let mut source = first.to_vec();
    source.resize(size - last.len(), filler);
    source.extend_from_slice(last);
    source
}

/// What stands once in front, what opens a construct, what stands innermost,
/// and what closes a construct.
const CONSTRUCTS: [(&str, &str, &str, &str); 14] = [
    ("", "{ ", "1", " }"),
    ("", "+ 1 ", "1", ""),
    ("", "! ", "1", ""),
    ("", "( g ", "1", " )"),
    ("", "[ i | ", "1", " ]"),
    ("", ": i x ", "1", ""),
    ("", "~ x { ", "1", " }"),
    ("", "; { ", "1", " }"),
    ("", "?? 1 { T → ", "1", " }"),
    ("", "\\ → v { ", "1", " }"),
    ("Z ", "( @ ", "i", " )"),
    ("Z ", "! i ", "i", ""),
    ("# ", "* ", "i 1 0", ""),
    (": ~ ", "? [ ", "i x 1", ""),
];

/// How often a construct stands inside itself: it takes one level each time, or
/// two, and the first stands at level 4.
const TIMES: [usize; 10] = [10, 97, 98, 99, 100, 194, 195, 196, 197, 198];

fn deep(number: usize) -> Vec<u8> {
    let (front, open, inside, close) = CONSTRUCTS[number % CONSTRUCTS.len()];
    let times = TIMES[number / CONSTRUCTS.len()];
    let (open, close) = (open.repeat(times), close.repeat(times));
    format!("@ g → v {{ {front}{open}{inside}{close} }}").into_bytes()
}
