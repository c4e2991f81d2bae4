//! What the desk program of the scope prints for an input.

use crate::answer::{read, Answer};
use crate::settings::{DESK_SOURCE_LIMIT, DESK_TOKEN_ROWS, DESK_TREE_ROWS, ROW_WIDTH, TOKEN_WIDTH};

/// The lines the desk program prints: at most 65,535 bytes are read (more is
/// refused 1), with 5,000 token rows, 4,000 tree rows and no extra names.
pub fn desk_output(source: &[u8]) -> String {
    if source.len() > DESK_SOURCE_LIMIT {
        return "refused 1 0\n".to_string();
    }
    let mut token_table = vec![0; DESK_TOKEN_ROWS * TOKEN_WIDTH];
    let mut tree_table = vec![0; DESK_TREE_ROWS * ROW_WIDTH];
    match read(source, b"", &mut token_table, &mut tree_table) {
        Answer::Refused { number, place } => format!("refused {number} {place}\n"),
        Answer::Accepted { tokens, rows } => {
            let mut output = format!("accepted {tokens} {rows}\n");
            for row in tree_table.chunks(ROW_WIDTH).take(rows as usize) {
                output.push_str(&line_of(row));
            }
            output
        }
    }
}

/// Numbers on one line, separated by one space.
pub fn line_of(numbers: &[u32]) -> String {
    let words: Vec<String> = numbers.iter().map(u32::to_string).collect();
    format!("{}\n", words.join(" "))
}
