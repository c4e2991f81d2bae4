//! Cases of the set N: names of the list and of the source that make a let's
//! IDENT its type, or an enum's IDENT a payload.

use crate::cases::Case;
use crate::settings::NAME_LIST_LIMIT;

/// Good lists with sources in which they decide something.
pub fn of_the_list() -> Vec<Case> {
    let mut cases = Vec::new();
    for list in LISTS {
        for source in USES {
            cases.push(Case::with_names(source, list));
        }
    }
    let mut longest = vec![b'n'; NAME_LIST_LIMIT];
    longest[NAME_LIST_LIMIT - 4..].copy_from_slice(b"\nFoo");
    cases.push(Case::with_names(USES[0], &longest));
    longest[0] = b'-';
    cases.push(Case::with_names(USES[0], &longest));
    longest[0] = b'n';
    longest.push(b'x');
    cases.push(Case::with_names(USES[0], &longest));
    cases
}

/// Declarations and other tokens that put a name into N, or do not, before and
/// after a use of the name.
pub fn of_the_source() -> Vec<Case> {
    let mut cases = Vec::new();
    for declaration in DECLARATIONS {
        for used in USES.iter().take(6) {
            cases.push(Case::new(format!("{declaration} {used}")));
            cases.push(Case::new(format!("{used} {declaration}")));
        }
    }
    cases
}

/// Lists, most of them bad, beside sources of every answer.
pub fn lists_and_sources() -> Vec<Case> {
    let mut cases = Vec::new();
    for list in BAD_LISTS {
        for source in [": i x 1", ": i x", ": i x , 1", ": i x `1"] {
            cases.push(Case::with_names(source, list));
        }
    }
    cases
}

const LISTS: [&str; 12] = [
    "",
    "Foo",
    "Bar\nFoo",
    "Foo\nBar",
    "Foo\nFoo",
    "a::Foo",
    "a__Foo",
    "Foo::Foo",
    "x",
    "_",
    "Fo\nFooo\nfoo",
    "A\nB2",
];

const USES: [&str; 11] = [
    "@ g → v { : Foo x 1 }",
    "@ g → v { : Foo x }",
    "@ g → v { : ~ Foo x 1 }",
    ": | E { A Foo B2 }",
    ": | E { Foo A }",
    "@ g → v { : Foo 1 }",
    "@ g → v { : a::Foo x 1 }",
    "@ g → v { : a__Foo x 1 }",
    "@ g → v { : x 1 }",
    "@ g → v { : _ 1 : Foo _ 1 }",
    "@ Foo Foo Foo → Foo { ~ Foo Foo { } = Foo \\ Foo }",
];

const DECLARATIONS: [&str; 16] = [
    ": Foo { }",
    ": Foo [ T ] { }",
    ": | Foo { }",
    ": Foo [",
    ": Foo {",
    ": | Foo",
    ": ~ Foo {",
    ": Foo x 1",
    "} : Foo { }",
    "{ : Foo { } }",
    "{ } : Foo { }",
    "{ : | Foo }",
    ": Foo::xx { }",
    "% Foo { }",
    "$ `s` Foo",
    "| Foo { : ( Foo {",
];

const BAD_LISTS: [&[u8]; 22] = [
    b"",
    b"Foo",
    b"Foo\nBar\nm::Name",
    b"\n",
    b"\nFoo",
    b"Foo\n",
    b"Foo\n\nBar",
    b"Foo\nBar\n",
    b"Foo\nBar\n\n",
    b"i",
    b"Foo\nT",
    b"Foo\nZ\ni",
    b"Foo bar",
    b"Foo ",
    b" Foo",
    b"Foo\r",
    b"Foo\r\nBar",
    b"Foo\nm::i",
    b"Foo\n:",
    b"Foo\n`x`",
    b"Foo\n//x",
    b"Foo\n\xE2\x86\x92",
];
