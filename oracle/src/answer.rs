//! The answer of a whole reading, from bytes to rows, with both lent tables
//! left as the scope's table says for each refusal.

use crate::names::{check_names, TypeNames};
use crate::parser::{parse, Row, Stop};
use crate::settings::{Settings, BASE, ROW_WIDTH, SOURCE_LIMIT, TOKEN_WIDTH};
use crate::tokens::{fill_token_table, scan, Token};

/// Either accepted, with the two row counts, or refused, with a number and a
/// place.
#[derive(Clone, Copy, Debug, PartialEq, Eq)]
pub enum Answer {
    Accepted { tokens: u32, rows: u32 },
    Refused { number: u32, place: u32 },
}

impl Answer {
    fn refused(number: u32, place: usize) -> Answer {
        Answer::Refused {
            number,
            place: place as u32,
        }
    }
}

/// Reads a source with the settings of the base.
pub fn read(source: &[u8], names: &[u8], tokens: &mut [u32], rows: &mut [u32]) -> Answer {
    read_with(BASE, source, names, tokens, rows)
}

/// Reads a source: the refusals 1 to 8 in the scope's order, else acceptance.
pub fn read_with(
    settings: Settings,
    source: &[u8],
    names: &[u8],
    token_table: &mut [u32],
    tree_table: &mut [u32],
) -> Answer {
    let token_room = token_table.len() / TOKEN_WIDTH;
    let tokens = match find_tokens(settings, source, names, token_room) {
        Ok(tokens) => tokens,
        // Both tables are unchanged.
        Err(refusal) => return refusal,
    };
    fill_token_table(&tokens, token_table);
    let row_room = tree_table.len() / ROW_WIDTH;
    match find_rows(settings, source, names, &tokens, row_room) {
        Ok(rows) => {
            fill_tree_table(&rows, tree_table);
            Answer::Accepted {
                tokens: tokens.len() as u32,
                rows: rows.len() as u32,
            }
        }
        Err(refusal) => {
            clear_whole_rows(tree_table);
            refusal
        }
    }
}

/// The refusals 1 to 5 in their order, else the tokens.
fn find_tokens(
    settings: Settings,
    source: &[u8],
    names: &[u8],
    token_room: usize,
) -> Result<Vec<Token>, Answer> {
    if source.len() > SOURCE_LIMIT {
        return Err(Answer::refused(1, 0));
    }
    if let Some(place) = check_names(names) {
        return Err(Answer::refused(2, place));
    }
    let tokens = match scan(source, settings.edition) {
        Ok(tokens) => tokens,
        Err(fault) => return Err(Answer::refused(fault.number, fault.place)),
    };
    if tokens.len() > token_room {
        return Err(Answer::refused(5, tokens.len()));
    }
    Ok(tokens)
}

/// The refusals 6 to 8 in their order, else the rows.
fn find_rows(
    settings: Settings,
    source: &[u8],
    names: &[u8],
    tokens: &[Token],
    row_room: usize,
) -> Result<Vec<Row>, Answer> {
    let type_names = TypeNames::collect(source, tokens, names, settings.edition);
    let rows = match parse(source, tokens, &type_names, settings) {
        Ok(rows) => rows,
        Err(Stop::NoProgram(place)) => return Err(Answer::refused(6, place)),
        Err(Stop::TooDeep(place)) => return Err(Answer::refused(7, place)),
    };
    if rows.len() > row_room {
        return Err(Answer::refused(8, rows.len()));
    }
    Ok(rows)
}

/// Writes the rows into the first rows of a table that has room for them.
fn fill_tree_table(rows: &[Row], table: &mut [u32]) {
    for (index, row) in rows.iter().enumerate() {
        let numbers = [
            row.kind,
            row.first as u32,
            row.covered as u32,
            row.subtree as u32,
        ];
        let first = index * ROW_WIDTH;
        table[first..first + ROW_WIDTH].copy_from_slice(&numbers);
    }
}

/// Makes all whole rows zero. Numbers past the last whole row stay.
fn clear_whole_rows(table: &mut [u32]) {
    let whole = table.len() / ROW_WIDTH * ROW_WIDTH;
    for number in &mut table[..whole] {
        *number = 0;
    }
}
