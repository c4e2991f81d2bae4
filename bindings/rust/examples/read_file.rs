//! Reads the NURL file named on the command line, and prints the answer, the
//! tokens with their text, and the tree, each row indented by its level.

use nurl::{read, rows_enough, tokens_enough, Answer, Row, Token, ROW_KINDS};
use std::process::ExitCode;

fn main() -> ExitCode {
    let Some(path) = std::env::args().nth(1) else {
        eprintln!("usage: read_file FILE");
        return ExitCode::from(2);
    };
    let source = match std::fs::read(&path) {
        Ok(source) => source,
        Err(error) => {
            eprintln!("{path}: {error}");
            return ExitCode::from(2);
        }
    };
    let mut tokens = vec![0; tokens_enough(source.len())];
    let mut rows = vec![0; rows_enough(source.len())];
    match read(&source, b"", &mut tokens, &mut rows) {
        Answer::Refused { number, place } => {
            println!("refused {number} {place}");
            ExitCode::FAILURE
        }
        Answer::Accepted {
            tokens: token_count,
            rows: row_count,
        } => {
            println!("accepted {token_count} {row_count}");
            print_tokens(&source, &tokens, token_count as usize);
            print_tree(&rows, row_count as usize);
            ExitCode::SUCCESS
        }
    }
}

fn print_tokens(source: &[u8], table: &[u32], count: usize) {
    for index in 0..count {
        let token = Token::at(table, index).expect("a whole row");
        let text = String::from_utf8_lossy(token.text(source));
        let Token { kind, start, .. } = token;
        println!("token {index}: kind {kind}, byte {start}, {text:?}");
    }
}

fn print_tree(table: &[u32], count: usize) {
    // The index after the last row of each subtree that is still open.
    let mut ends: Vec<usize> = Vec::new();
    for index in 0..count {
        while ends.last() == Some(&index) {
            ends.pop();
        }
        let row = Row::at(table, index).expect("a whole row");
        let indent = "  ".repeat(ends.len());
        let kind = ROW_KINDS[row.kind as usize];
        let Row { first, covered, .. } = row;
        println!("{indent}{kind}: first token {first}, covers {covered}");
        ends.push(index + row.subtree as usize);
    }
}
