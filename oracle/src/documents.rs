//! The scripts of the documents: the fenced code blocks of a Markdown text
//! whose info string begins with `nurl` and then states the answer.

use crate::answer::Answer;
use crate::cases::Case;
use crate::settings::{
    DESK_SOURCE_LIMIT, DESK_TOKEN_ROWS, DESK_TREE_ROWS, ROW_WIDTH, SOURCE_LIMIT, TOKEN_WIDTH,
};
use std::path::Path;

/// A script of a document, with the answer that the document states.
#[derive(Clone, Debug, PartialEq, Eq)]
pub struct Block {
    /// The line that opens the block, counted from 1.
    pub line: usize,
    pub stated: Answer,
    pub case: Case,
    /// A source of more bytes is refused 1: the desk's limit or the library's.
    pub source_limit: usize,
}

impl Block {
    /// The answer that the reader gives.
    pub fn given(&self) -> Answer {
        if self.case.piece.len() * self.case.repeats > self.source_limit {
            return Answer::Refused {
                number: 1,
                place: 0,
            };
        }
        self.case.run().0
    }
}

/// The documents that have scripts, each with its text.
pub fn documents() -> Vec<(&'static str, String)> {
    let folder = Path::new(env!("CARGO_MANIFEST_DIR")).join("../docs");
    let text_of =
        |name| std::fs::read_to_string(folder.join(name)).expect("a document that can be read");
    ["REFUSALS.md", "LANGUAGE.md"]
        .map(|name| (name, text_of(name)))
        .into()
}

/// The scripts of a document in order, or what is wrong with the document.
/// Fragments and blocks of other languages are left out.
pub fn blocks(text: &str) -> Result<Vec<Block>, String> {
    let mut found = Vec::new();
    for fence in fences(text)? {
        if !fence.info.starts_with("nurl") || fence.info == "nurl fragment" {
            continue;
        }
        match block(&fence) {
            Some(block) => found.push(block),
            None => return Err(format!("line {}: `{}` ?", fence.line, fence.info)),
        }
    }
    Ok(found)
}

/// A fenced code block.
struct Fence<'a> {
    line: usize,
    indented: bool,
    /// How many backticks open the block. At least as many close it.
    backticks: usize,
    info: &'a str,
    /// The lines inside, each with byte 10 after it.
    inside: String,
}

impl<'a> Fence<'a> {
    /// The block that a line opens, if it opens one.
    fn opened_by(text: &'a str, line: usize) -> Option<Fence<'a>> {
        let from_mark = text.trim_start();
        let info = from_mark.trim_start_matches('`');
        let backticks = from_mark.len() - info.len();
        if backticks < 3 || info.contains('`') {
            return None;
        }
        Some(Fence {
            line,
            indented: from_mark.len() < text.len(),
            backticks,
            info: info.trim(),
            inside: String::new(),
        })
    }

    fn is_closed_by(&self, text: &str) -> bool {
        let mark = text.trim();
        mark.len() >= self.backticks && mark.bytes().all(|byte| byte == b'`')
    }
}

/// All fenced code blocks of a text.
fn fences(text: &str) -> Result<Vec<Fence<'_>>, String> {
    let mut found = Vec::new();
    let mut open: Option<Fence> = None;
    for (index, line) in text.lines().enumerate() {
        match &mut open {
            None => open = Fence::opened_by(line, index + 1),
            Some(fence) if fence.is_closed_by(line) => found.extend(open.take()),
            Some(fence) => {
                fence.inside.push_str(line);
                fence.inside.push('\n');
            }
        }
    }
    match open {
        Some(fence) => Err(format!("line {}: the block is not closed", fence.line)),
        None => Ok(found),
    }
}

/// The script of a fenced block. Nothing if the info string cannot be read, or
/// if the block is indented, so that its bytes are not plain to see.
fn block(fence: &Fence) -> Option<Block> {
    let words: Vec<&str> = fence.info.split(' ').collect();
    let ["nurl", answer, first, second, settings @ ..] = &words[..] else {
        return None;
    };
    if fence.indented {
        return None;
    }
    let mut block = Block {
        line: fence.line,
        stated: stated_answer(answer, first, second)?,
        case: Case {
            piece: fence.inside.clone().into_bytes(),
            repeats: 1,
            names: Vec::new(),
            token_length: DESK_TOKEN_ROWS * TOKEN_WIDTH,
            tree_length: DESK_TREE_ROWS * ROW_WIDTH,
        },
        source_limit: DESK_SOURCE_LIMIT,
    };
    for setting in settings {
        change(&mut block, setting)?;
    }
    Some(block)
}

/// `accepted TOKENS ROWS` or `refused NUMBER PLACE`.
fn stated_answer(answer: &str, first: &str, second: &str) -> Option<Answer> {
    let (first, second) = (first.parse().ok()?, second.parse().ok()?);
    match answer {
        "accepted" => Some(Answer::Accepted {
            tokens: first,
            rows: second,
        }),
        "refused" => Some(Answer::Refused {
            number: first,
            place: second,
        }),
        _ => None,
    }
}

/// Applies a setting to a block. Nothing if there is no such setting.
fn change(block: &mut Block, setting: &str) -> Option<()> {
    if setting == "library" {
        block.source_limit = SOURCE_LIMIT;
        return Some(());
    }
    let (name, value) = setting.split_once('=')?;
    let number = || value.parse::<usize>().ok();
    match name {
        "times" => block.case.repeats = number().filter(|times| *times > 0)?,
        "names" => block.case.names = value.replace(',', "\n").into_bytes(),
        "tokens" => block.case.token_length = number()? * TOKEN_WIDTH,
        "rows" => block.case.tree_length = number()? * ROW_WIDTH,
        _ => return None,
    }
    Some(())
}

#[cfg(test)]
mod tests {
    use super::*;

    /// The only script of a text.
    fn only(text: &str) -> Block {
        let mut found = blocks(text).unwrap();
        assert_eq!(found.len(), 1);
        found.remove(0)
    }

    #[test]
    fn a_block_has_the_tables_of_the_desk() {
        let block = only("Text.\n\n```nurl accepted 4 4\n: i a\n  -1\n```\n");
        assert_eq!(block.line, 3);
        assert_eq!(block.case.piece, b": i a\n  -1\n");
        assert_eq!(block.case.names, b"");
        assert_eq!(block.source_limit, 65_535);
        let lengths = (block.case.token_length, block.case.tree_length);
        assert_eq!((block.case.repeats, lengths), (1, (15_000, 16_000)));
        assert_eq!(block.given(), block.stated);
    }

    #[test]
    fn settings_change_the_case() {
        let block = only("```nurl refused 2 4 times=3 names=Foo, tokens=7 rows=9 library\n``\n```");
        assert_eq!(block.case.piece, b"``\n");
        assert_eq!(block.case.names, b"Foo\n");
        assert_eq!(block.source_limit, SOURCE_LIMIT);
        let lengths = (block.case.token_length, block.case.tree_length);
        assert_eq!((block.case.repeats, lengths), (3, (21, 36)));
        assert_eq!(block.given(), block.stated);
    }

    #[test]
    fn the_limit_on_the_length_is_the_desks_or_the_librarys() {
        for (info, refused) in [
            ("refused 1 0 times=65535", false),
            ("refused 1 0 times=65536", true),
            ("refused 1 0 times=65536 library", false),
            ("refused 1 0 times=1048576 library", false),
            ("refused 1 0 times=1048577 library", true),
        ] {
            let block = only(&format!("```nurl {info}\n\n```\n"));
            assert_eq!(block.given() == block.stated, refused, "{info}");
        }
    }

    #[test]
    fn other_blocks_are_left_out() {
        let text = "```\n: i a 1\n```\n``` rust\nx\n```\n  ```sh\n  x\n  ```\n\
                    ```nurl fragment\n: x 1\n```\n````text\n```nurl x\n````\n\
                    ```` ```nurl x ````\n`nurl`\n";
        assert_eq!(blocks(text), Ok(Vec::new()));
    }

    #[test]
    fn what_cannot_be_read_is_said() {
        for info in [
            "nurl",
            "nurl accepted",
            "nurl accepted 1",
            "nurl accepted 1 x",
            "nurl accepted -1 1",
            "nurl taken 1 1",
            "nurl accepted 1 1 2",
            "nurl accepted 1 1 times=",
            "nurl accepted 1 1 times=0",
            "nurl accepted 1 1 names",
            "nurl accepted 1 1 room=1",
            "nurl accepted  1 1",
            "nurl fragment 1",
            "nurl17 accepted 1 1",
        ] {
            assert!(blocks(&format!("```{info}\n```\n")).is_err(), "{info}");
        }
        assert!(blocks("  ```nurl accepted 0 1\n  ```\n").is_err());
        assert!(blocks("```nurl accepted 0 1\n").is_err());
    }
}
