//! Scripts around the limits of the desk program: its longest source, its
//! token table and its tree table.

use crate::desk::desk_output;

/// The name of a script, and how the script is made.
type Border = (&'static str, fn() -> Vec<u8>);

const BORDERS: [Border; 11] = [
    ("empty", Vec::new),
    ("bytes-65534", || with_bytes(65_534)),
    ("bytes-65535", || with_bytes(65_535)),
    ("bytes-65536", || with_bytes(65_536)),
    ("bytes-65537", || with_bytes(65_537)),
    ("tokens-4999", || with_tokens(4_999)),
    ("tokens-5000", || with_tokens(5_000)),
    ("tokens-5001", || with_tokens(5_001)),
    ("rows-3999", || with_rows(3_999)),
    ("rows-4000", || with_rows(4_000)),
    ("rows-4001", || with_rows(4_001)),
];

/// The names of the scripts, in order.
pub fn names() -> Vec<&'static str> {
    BORDERS.iter().map(|(name, _)| *name).collect()
}

/// The bytes of the script of this name.
pub fn script(name: &str) -> Option<Vec<u8>> {
    let mut found = BORDERS.iter().filter(|(known, _)| *known == name);
    found.next().map(|(_, make)| make())
}

/// The names, each on a line.
pub fn list_text() -> String {
    names().iter().map(|name| format!("{name}\n")).collect()
}

/// For each script its name on a line, and then what the desk program prints.
pub fn output_text() -> String {
    let text_of = |(name, make): &Border| format!("{name}\n{}", desk_output(&make()));
    BORDERS.iter().map(text_of).collect()
}

/// Two constants with a comment between them that makes the script so many
/// bytes long. The second constant is the very end of the script: a reader that
/// drops the last byte reads another number, and one that drops two bytes finds
/// no number.
fn with_bytes(length: usize) -> Vec<u8> {
    let front = b": i low 160 //";
    let end = b"\n: i high 21";
    let comment = vec![b'x'; length - front.len() - end.len()];
    [&front[..], &comment, end].concat()
}

/// A function with one long list of type parameters, so many tokens in all,
/// which needs few rows.
fn with_tokens(count: usize) -> Vec<u8> {
    let words = " A".repeat(count - 8);
    format!("@ g [{words} ] → v {{ }}\n").into_bytes()
}

/// A function with one long slice literal, so many tree rows in all: six
/// without the values, and one for each value.
fn with_rows(count: usize) -> Vec<u8> {
    let values = " 1".repeat(count - 6);
    format!("@ g → v {{ [ i |{values} ] }}\n").into_bytes()
}

#[cfg(test)]
mod tests {
    use super::*;
    use crate::cases::Needed;
    use crate::settings::{DESK_SOURCE_LIMIT, DESK_TOKEN_ROWS, DESK_TREE_ROWS};

    /// The number at the end of a name, and the script.
    fn sized(kind: &str) -> Vec<(usize, Vec<u8>)> {
        let all = names().into_iter();
        let sizes = all.filter_map(|name| Some((name, name.strip_prefix(kind)?)));
        let found = sizes.map(|(name, size)| (size.parse().unwrap(), script(name).unwrap()));
        found.collect()
    }

    #[test]
    fn each_script_has_the_size_that_its_name_says() {
        assert_eq!(script("empty").unwrap(), b"");
        let (bytes, tokens, rows) = (sized("bytes-"), sized("tokens-"), sized("rows-"));
        assert_eq!((bytes.len(), tokens.len(), rows.len()), (4, 3, 3));
        for (size, script) in bytes {
            assert_eq!(script.len(), size);
        }
        for (size, script) in tokens {
            let needed = Needed::of(&script, b"");
            assert_eq!(needed.tokens, size);
            assert!(needed.rows < 10 && script.len() <= DESK_SOURCE_LIMIT);
        }
        for (size, script) in rows {
            let needed = Needed::of(&script, b"");
            assert_eq!(needed.rows, size);
            assert!(needed.tokens <= DESK_TOKEN_ROWS && script.len() <= DESK_SOURCE_LIMIT);
        }
    }

    #[test]
    fn each_script_has_its_answer() {
        let answers = [
            "accepted 0 1",
            "accepted 8 7",
            "accepted 8 7",
            "refused 1 0",
            "refused 1 0",
            "accepted 4999 5",
            "accepted 5000 5",
            "refused 5 5001",
            "accepted 4003 3999",
            "accepted 4004 4000",
            "refused 8 4001",
        ];
        for (name, answer) in names().iter().zip(answers) {
            let output = desk_output(&script(name).unwrap());
            assert_eq!(output.lines().next(), Some(answer), "{name}");
        }
        assert_eq!(DESK_TREE_ROWS, 4_000);
    }

    #[test]
    fn a_reader_of_the_front_alone_gives_another_answer() {
        for (name, answer) in [
            ("bytes-65536", "accepted 8 7"),
            ("bytes-65537", "refused 6 7"),
        ] {
            let front = &script(name).unwrap()[..DESK_SOURCE_LIMIT];
            let output = desk_output(front);
            assert_eq!(output.lines().next(), Some(answer), "{name}");
        }
    }

    #[test]
    fn the_texts_have_every_name_in_order() {
        assert_eq!(list_text().lines().collect::<Vec<_>>(), names());
        let output = output_text();
        let named = output.lines().filter(|line| names().contains(line));
        assert_eq!(named.collect::<Vec<_>>(), names());
        assert_eq!(script("bytes"), None);
    }
}
