//! Cases of refusals in their order, of table lengths, of the longest sources
//! and of name lists.

use crate::cases::Case;
use crate::settings::{NAME_LIST_LIMIT, SOURCE_LIMIT};

/// A fault of each kind before and after one of the other kind.
pub fn faults_in_order() -> Vec<Case> {
    let sources: [&[u8]; 20] = [
        b", `",
        b"` ,",
        b",`",
        b"`,",
        b"a , c `",
        b"a ` c ,",
        b"`,` ,",
        b"`,` `",
        b"`,` , `",
        b"// ,\n`",
        b"// `\n,",
        b", ,",
        b"\xE2 ,",
        b", \xE2",
        b"` `, `",
        b"a 1 -2 \"x\"",
        b"a\n\n\x00\n",
        b"'a'",
        b"a // `\n , `",
        b"\xE2\x86 ` \xE2\x86\x92",
    ];
    sources.iter().map(Case::new).collect()
}

/// A fault after more tokens than the table has rows: 3 or 4, never 5.
pub fn faults_after_a_full_table() -> Vec<Case> {
    let mut cases = Vec::new();
    for rows in 0..4 {
        for fault in [",", "`", "` ,", ", `", "\u{e9}", "// ,"] {
            let source = format!("a 1 ( `x` → {fault}");
            cases.push(Case::new(source).token_table(rows * 3 + rows % 3));
        }
    }
    cases
}

/// Tables without numbers, of one number, of no whole number of rows, with
/// exactly room, with one row too few and one row too many.
pub fn table_lengths() -> Vec<Case> {
    let mut cases = Vec::new();
    for (source, lengths) in [
        ("", 0..6),
        (" // none", 0..5),
        ("a", 0..8),
        ("a ( 1", 0..14),
        (": ~ i count -40 // nine\n= x + 1", 24..36),
        (",", 0..5),
        ("a `", 0..5),
    ] {
        for length in lengths {
            cases.push(Case::new(source).token_table(length));
        }
    }
    let many = Case::new("; ").repeated(3_000);
    for length in [8_996, 8_997, 8_998, 8_999, 9_000] {
        cases.push(many.clone().token_table(length));
    }
    cases.push(Case::new("; ").repeated(3_001).token_table(9_000));
    cases.push(Case::new("a").token_table(9_000));
    cases
}

/// A case whose source is a piece repeated to exactly this length.
fn filled(piece: &[u8], length: usize) -> Case {
    assert_eq!(length % piece.len(), 0);
    Case::new(piece)
        .repeated(length / piece.len())
        .token_table(10)
}

/// Sources of 1,048,576 bytes and of one byte more or less.
pub fn longest_sources() -> Vec<Case> {
    let long_string = [b"`", &[b'x'; 16_382][..], b"`"].concat();
    let mut cases = vec![
        filled(b" ", SOURCE_LIMIT),
        filled(b"\n", SOURCE_LIMIT),
        filled(b"//x,`\xE2 7", SOURCE_LIMIT),
        filled(b"//x\n", SOURCE_LIMIT),
        filled(b"`one string`// x", SOURCE_LIMIT),
        filled(&long_string, SOURCE_LIMIT).token_table(195),
        filled(b"``", SOURCE_LIMIT),
        filled(b";", SOURCE_LIMIT),
        filled(b"a", SOURCE_LIMIT),
        filled(b"ab::", SOURCE_LIMIT),
        filled(b"7", SOURCE_LIMIT),
        filled(b"1.", SOURCE_LIMIT),
        filled(b"i ", SOURCE_LIMIT),
        filled(b"a,", SOURCE_LIMIT),
        filled(b"a", SOURCE_LIMIT).token_table(2),
        // The last byte opens a string, whatever stands before this piece.
        filled(b"` // `\n`", SOURCE_LIMIT),
        filled(b"aaaa`", SOURCE_LIMIT - 1),
        filled("→".as_bytes(), SOURCE_LIMIT - 1),
    ];
    let too_long: [&[u8]; 9] = [
        b" ",
        b";",
        b"a",
        b",",
        b"`",
        b"// comment, of 17",
        b"`string of 17 b.`",
        b"; ; ; ; ; ; ; ; ;",
        b"` of 17 and open.",
    ];
    for piece in too_long {
        cases.push(filled(piece, SOURCE_LIMIT + 1));
    }
    cases
}

/// Good and bad lists of extra names.
pub fn name_lists() -> Vec<Case> {
    let mut cases: Vec<Case> = Vec::new();
    for list in SHORT_LISTS {
        cases.push(Case::new("a 1").names(list));
    }
    let longest = vec![b'n'; NAME_LIST_LIMIT];
    cases.push(Case::new("a 1").names(&longest));
    let mut bad = longest.clone();
    bad[NAME_LIST_LIMIT - 1] = b' ';
    bad[9_000] = 10;
    cases.push(Case::new("a 1").names(&bad));
    bad[NAME_LIST_LIMIT - 1] = 10;
    cases.push(Case::new("a 1").names(&bad));
    let mut too_long = vec![b'n'; NAME_LIST_LIMIT + 1];
    cases.push(Case::new("a 1").names(&too_long));
    too_long[8_000] = 10;
    too_long[8_001] = 10;
    cases.push(Case::new("a 1").names(&too_long));
    cases
}

/// A bad list with a source that is too long (1 is given), and with a source
/// that has a fault or too many tokens (2 is given).
pub fn names_before_the_source() -> Vec<Case> {
    let mut cases = Vec::new();
    for list in ["i", "a\n", "good\n\nT", "\n"] {
        cases.push(filled(b" ", SOURCE_LIMIT + 1).names(list));
        cases.push(filled(b" ", SOURCE_LIMIT).names(list));
        for source in [",", "`", "a ,", "a `x", "a a a", ""] {
            cases.push(Case::new(source).names(list).token_table(4));
        }
    }
    for source in [",", "`", "a ,", "a `x", "a a a", ""] {
        cases.push(Case::new(source).names("good\nother").token_table(4));
    }
    cases
}

const SHORT_LISTS: &[&[u8]] = &[
    b"",
    b"a",
    b"Band",
    b"a\nc",
    b"Band\nBands\nEntry",
    b"a\na",
    b"_",
    b"__",
    b"a::c",
    b"a::c::d",
    b"m::Band\nm__Band",
    b"i8\nTT\nZ1\n_i",
    b"i",
    b"u",
    b"f",
    b"b",
    b"s",
    b"v",
    b"T",
    b"F",
    b"Z",
    b"a\ni\nc",
    b"a\nT",
    b"Z\na",
    b"a::b",
    b"a::i",
    b"a::",
    b"::a",
    b"a:c",
    b"a:::c",
    b"a::c::",
    b"\n",
    b"\n\n",
    b"\na",
    b"a\n",
    b"a\n\n",
    b"a\n\nc",
    b"a\nc\n",
    b"abc\n\ni\n",
    b" a",
    b"a ",
    b"a c",
    b"a\tc",
    b"a\r",
    b"a\r\nc",
    b"good\na//x",
    b"//x",
    b"good\n,",
    b"good\n`",
    b"`a`",
    b"good\n9a",
    b"good\n-1",
    b"good\n\xE2\x86\x92",
    b"good\na\x00",
];
