//! Cases of words, joins, numbers, strings and comments.

use crate::cases::Case;

fn cases_of(sources: &[&str]) -> Vec<Case> {
    sources.iter().map(Case::new).collect()
}

/// Words of each classification, alone and glued to digits.
pub fn words() -> Vec<Case> {
    let mut cases = cases_of(&[
        "_", "__", "a", "A", "z", "Z", "T", "F", "i", "u", "f", "b", "s", "v", "I", "U", "B", "S",
        "V", "t", "ii", "i8", "i_", "_i", "TT", "T1", "F_", "ZZ", "Z0", "abc", "a1b2", "a_b", "9a",
        "1i", "1T", "1Z", "i 8", "T F Z", "a b c", "aé", "a,b", "_9 9_", "if", "else",
    ]);
    let letters: String = ('a'..='z').chain('A'..='Z').collect();
    cases.push(Case::new(format!("{letters}0123456789_")));
    let spaced: Vec<String> = letters.chars().map(String::from).collect();
    cases.push(Case::new(spaced.join(" ")));
    cases
}

/// Words of each class with `::` between them, in one, two and three parts,
/// and with colons and spaces that join nothing.
pub fn joins() -> Vec<Case> {
    let parts = ["i", "T", "Z", "xx"];
    let joints = ["::", " ::", ":: ", " :: ", ": :", ":::", ":"];
    let mut cases = Vec::new();
    for first in parts {
        cases.push(Case::new(first));
        cases.push(Case::new(format!("{first}::")));
        cases.push(Case::new(format!("::{first}")));
        for second in parts {
            for joint in joints {
                cases.push(Case::new(format!("{first}{joint}{second}")));
            }
            for third in parts {
                cases.push(Case::new(format!("{first}::{second}::{third}")));
            }
        }
    }
    for (left, right) in [("::", ":::"), ("::", ":: "), (" ::", "::"), ("::", ":")] {
        cases.push(Case::new(format!("xx{left}yy{right}zz")));
    }
    cases.extend(cases_of(OTHER_JOINS));
    cases
}

/// INTs with and without a minus, after words, digits and marks.
pub fn ints() -> Vec<Case> {
    cases_of(INTS)
}

/// FLOATs with every form of exponent, complete and incomplete.
pub fn floats() -> Vec<Case> {
    let mut cases = Vec::new();
    for number in ["1.0", "-2.50"] {
        for exponent in EXPONENTS {
            cases.push(Case::new(format!("{number}{exponent}")));
        }
    }
    cases.extend(cases_of(OTHER_FLOATS));
    cases
}

/// Strings with bytes of each class inside, closed and not.
pub fn strings() -> Vec<Case> {
    let mut cases = Vec::new();
    for inside in INSIDES {
        cases.push(Case::new([b"`", *inside, b"`"].concat()));
        cases.push(Case::new([b"`", *inside].concat()));
    }
    let all: Vec<u8> = (0..=255).filter(|byte| *byte != b'`').collect();
    cases.push(Case::new([b"a `", &all[..], b"` c"].concat()));
    cases.push(Case::new([b"a `", &all[..]].concat()));
    cases.extend(cases_of(OTHER_STRINGS));
    cases
}

/// Comments: glued, empty, ended by byte 10, by byte 13 and by the end.
pub fn comments() -> Vec<Case> {
    let mut cases = cases_of(COMMENTS);
    let all: Vec<u8> = (0..=255).filter(|byte| *byte != 10).collect();
    cases.push(Case::new([b"a//", &all[..]].concat()));
    cases.push(Case::new([b"a//", &all[..], b"\nc"].concat()));
    cases
}

const OTHER_JOINS: &[&str] = &[
    "a::9",
    "9::a",
    "a::-1",
    "a::`x`",
    "a::_",
    "_::a",
    "_::_::_",
    "a::::c",
    "a::i8",
    "a::ii",
    "a::c::d::e::g",
    "a::c d::e",
    "a:// x\n:c",
    "a::// x\nc",
    "a::\nc",
    "a::é",
    "a::,",
    "i::i::xx::yy",
    "xx::i::yy::zz",
    "@a::c→",
];

const INTS: &[&str] = &[
    "0",
    "7",
    "42",
    "007",
    "-0",
    "-7",
    "-42",
    "-007",
    "5-3",
    "5 -3",
    "5 - 3",
    "5- 3",
    "a-3",
    "a -3",
    "a - 3",
    "a- 3",
    "T-1",
    "i-1",
    "Z-1",
    "--3",
    "---3",
    "- -3",
    "-a",
    "-",
    "- ",
    "-\n3",
    "-//\n3",
    "-_1",
    "1-",
    "1--1",
    "1-2-3",
    "+3",
    "*-3",
    "(-3)",
    "[-3]",
    "`x`-3",
    "→-3",
    "-→",
    "1_0",
    "0x1F",
    "1a",
    "a1",
    "_1",
    "1 2 3",
    "12345678901234567890",
    "1`2`3",
    "-1,",
    "-\u{b2}",
];

const EXPONENTS: &[&str] = &[
    "", "e", "E", "e5", "E5", "e+5", "e-5", "E+5", "E-5", "e+", "e-", "E+", "E-", "e +5", "e+ 5",
    "e++5", "e+-5", "e-+5", "e_5", "e5e5", "e5.5", "e05", "ex", "e5x", "x5", "e,",
];

const OTHER_FLOATS: &[&str] = &[
    "3.",
    "-3.",
    "3. 5",
    "3 .5",
    ".5",
    "-.5",
    "3..5",
    "3.5.7",
    "3.-5",
    "3.5-5",
    "3.5-5.5",
    "3.e5",
    "3e5",
    "3E5",
    "3e",
    "00.00",
    "3.x",
    "3.5x",
    "3._5",
    "a3.5",
    "a.5",
    "a.5.5",
    "3.5i",
    "3.5T",
    "3.5`e`5",
    "3.5e`",
    "3.5//e5",
    "3.//5",
    "3.5.",
    "3.5..",
    "1.5:2.5",
    "1.5→",
    "-1.5-1.5e-1-1",
    "3.\n5",
    "3.5e\n5",
    "- 3.5",
    "--3.5",
    "3.,",
    "3.5e+,",
];

const INSIDES: &[&[u8]] = &[
    b"",
    b"a",
    b" ",
    b"\n",
    b"\r",
    b"\t",
    b"\x00",
    b"\x7F",
    b"\x80",
    b"\xFF",
    b"\xE2",
    b"\xE2\x86",
    b"\xE2\x86\x92",
    b",",
    b"//",
    b"// x\n",
    b"\\",
    b"\\n\\t\\r\\\\",
    b"-1",
    b"a::c",
    b"{}[]()",
];

const OTHER_STRINGS: &[&str] = &[
    "````",
    "```",
    "`a``c`",
    "`a`c`d`",
    "`a`c`d",
    "a`c`d",
    "1`c`1",
    "// `\n`a`",
    "// `\n`a",
    "`a` // `",
    "`a` // `\n`",
    "`a`//`\n`c`",
    "$ `path` m",
    "`a\\`c`",
    "`,`,`,`",
    "`a`,`c`",
];

const COMMENTS: &[&str] = &[
    "//",
    "///",
    "////",
    "// ",
    "//\n",
    "//\r",
    "//\r\n",
    "//a",
    "// a\nc",
    "// a\rc",
    "// a\r\nc",
    "a//",
    "a//c",
    "a//\nc",
    "a //c\n d",
    "1//2\n3",
    "-//\n-",
    "/",
    "/ /",
    "/a/",
    "a/c",
    "a/ /c",
    "///\n/",
    "/\n/",
    "// x\n// y\nz",
    "//\n//\n//",
    "=//\n=",
    ":://\n:",
    "`x`//y",
    "→//→",
    "//→\n→",
    "*/ /*",
    "/**/",
    "// // ,\n,",
    "// `",
    "// `\n`",
    "\\//\\",
];
