//! Cases of single bytes, of marks and of the arrow's three bytes.

use crate::cases::Case;
use crate::kinds::token::MARKS;

/// The marks that begin or end like another mark, like a comment, a join or a
/// negative number.
const CLOSE_MARKS: [&str; 15] = [
    ":", "=", "!", "?", "-", "/", "<", ">", "==", "!=", "<=", ">=", "<<", ">>", "??",
];

const ARROW: &[u8] = &[0xE2, 0x86, 0x92];

/// Each of the 256 bytes alone.
pub fn single() -> Vec<Case> {
    (0..=255u8).map(|byte| Case::new([byte])).collect()
}

/// Each of the 256 bytes before a neighbour, and after it.
pub fn beside(neighbour: &[u8]) -> Vec<Case> {
    let mut cases = Vec::new();
    for byte in 0..=255u8 {
        cases.push(Case::new([&[byte], neighbour].concat()));
        cases.push(Case::new([neighbour, &[byte]].concat()));
    }
    cases
}

/// Each mark alone.
pub fn single_marks() -> Vec<Case> {
    MARKS.iter().map(Case::new).collect()
}

/// Each pair of marks glued together: all pairs with the same first mark as
/// lines of one source, and the pairs that may run into each other also alone,
/// at the end of their source.
pub fn pairs_of_marks() -> Vec<Case> {
    let mut cases = Vec::new();
    for first in MARKS {
        let lines: String = MARKS
            .iter()
            .map(|mark| format!("{first}{mark}\n"))
            .collect();
        cases.push(Case::new(lines));
    }
    for first in CLOSE_MARKS {
        for second in CLOSE_MARKS {
            cases.push(Case::new(format!("{first}{second}")));
        }
    }
    cases
}

/// The proper prefixes of the arrow at the end and before other bytes.
pub fn cut_arrows() -> Vec<Case> {
    let followers: [&[u8]; 14] = [
        b"", b" ", b"\n", b"a", b"1", b"-", b"`", b"``", b"//", b",", b"\xE2", b"\x86", b"\x00",
        ARROW,
    ];
    let fronts: [&[u8]; 2] = [b"", b"a // x\n"];
    let mut cases = Vec::new();
    for length in [1, 2] {
        for follower in followers {
            for front in fronts {
                let source = [front, &ARROW[..length], follower].concat();
                cases.push(Case::new(source));
            }
        }
    }
    cases
}

/// The arrow with another second or third byte, and its bytes in other orders.
pub fn broken_arrows() -> Vec<Case> {
    let others = [
        0x00, 0x20, 0x41, 0x60, 0x7F, 0x80, 0x85, 0x87, 0x91, 0x93, 0xE2, 0xFF,
    ];
    let mut cases = Vec::new();
    for other in others {
        cases.push(Case::new([0xE2, other, 0x92]));
        cases.push(Case::new([0xE2, 0x86, other]));
        cases.push(Case::new([b'a', b' ', 0xE2, 0x86, other, 0x92]));
    }
    let sources: [&[u8]; 8] = [
        b"\xE2\x92\x86",
        b"\x86\x92\xE2",
        b"\x92\x86\xE2",
        b"\xE2\xE2\x86\x92",
        b"\xE2\x86\x92\x92",
        b"\xE2\x86\x92\xE2\x86\x92",
        b"\xE2 \x86\x92",
        b"`\xE2\x86` //\xE2\n\xE2\x86\x92",
    ];
    cases.extend(sources.iter().map(Case::new));
    cases
}
