//! Cases of the scripts that stand in the documents.

use crate::cases::{
    Case, LONGEST_NAME_LIST, LONGEST_PIECE, LONGEST_SOURCE, LONGEST_TOKEN_TABLE, LONGEST_TREE_TABLE,
};
use crate::documents::{blocks, documents};

/// Every script, with its own tables as far as the case file takes them.
pub fn scripts() -> Vec<Case> {
    let mut cases = Vec::new();
    for (name, text) in documents() {
        match blocks(&text) {
            Ok(found) => cases.extend(found.into_iter().map(|block| block.case)),
            Err(message) => panic!("docs/{name}, {message}"),
        }
    }
    cases.retain(fits);
    cases.into_iter().map(with_shorter_tables).collect()
}

/// Whether the case file takes the source and the names.
fn fits(case: &Case) -> bool {
    case.piece.len() <= LONGEST_PIECE
        && case.piece.len() * case.repeats <= LONGEST_SOURCE
        && case.names.len() <= LONGEST_NAME_LIST
}

fn with_shorter_tables(case: Case) -> Case {
    let token_length = case.token_length.min(LONGEST_TOKEN_TABLE);
    let tree_length = case.tree_length.min(LONGEST_TREE_TABLE);
    case.token_table(token_length).tree_table(tree_length)
}
