//! The list of extra type names with its refusal 2, and the set N of the type
//! names of a source.

use crate::coverage::{asked, COUNTS};
use crate::kinds::token;
use crate::settings::{Edition, BASE, NAME_LIST_LIMIT};
use crate::tokens::{token_at, Token};
use std::collections::BTreeSet;

/// The entries of a name list, each with the place of its first byte. An empty
/// list has no entries; a byte 10 stands between two entries, so a list that
/// ends with one has an empty last entry.
pub fn entries(list: &[u8]) -> Vec<(usize, &[u8])> {
    let mut found = Vec::new();
    if list.is_empty() {
        return found;
    }
    let mut start = 0;
    for entry in list.split(|byte| *byte == 10) {
        found.push((start, entry));
        start += entry.len() + 1;
    }
    found
}

/// Refusal 2: the place, if the list is too long or an entry's bytes are not
/// exactly one IDENT token; nothing if the list is good.
pub fn check_names(list: &[u8]) -> Option<usize> {
    if list.len() > NAME_LIST_LIMIT {
        return Some(0);
    }
    for (place, entry) in entries(list) {
        if !is_one_ident(entry) {
            return Some(place);
        }
    }
    None
}

/// Whether these bytes are exactly one IDENT token.
fn is_one_ident(entry: &[u8]) -> bool {
    if entry.is_empty() {
        return false;
    }
    token_at(entry, 0, BASE.edition) == Ok((token::IDENT, entry.len()))
}

/// The set N: the type names of a source and its list.
pub struct TypeNames {
    names: BTreeSet<Vec<u8>>,
}

impl TypeNames {
    /// N, taken over the whole token list, with the extra names of a good list.
    pub fn collect(source: &[u8], tokens: &[Token], list: &[u8], edition: Edition) -> TypeNames {
        let mut names = BTreeSet::new();
        for (_, entry) in entries(list) {
            names.insert(compared_form(entry));
        }
        let mut depth: usize = 0;
        for (index, this) in tokens.iter().enumerate() {
            match this.kind {
                token::OPEN_BRACE => depth += 1,
                token::CLOSE_BRACE => {
                    asked("N: a `}` stands at depth zero", depth == 0);
                    depth = depth.saturating_sub(1);
                }
                token::IDENT
                    if (depth == 0 || COUNTS)
                        && declares_type(tokens, index, edition)
                        && asked("N: a declared name stands at depth zero", depth == 0) =>
                {
                    names.insert(compared_form(this.text(source)));
                }
                _ => {}
            }
        }
        TypeNames { names }
    }

    /// Whether a name is in N.
    pub fn contains(&self, name: &[u8]) -> bool {
        self.names.contains(&compared_form(name))
    }
}

/// Whether the IDENT at `index` "stands directly after `:` and before `{` or
/// `[`, or directly after `:` `|`".
fn declares_type(tokens: &[Token], index: usize, edition: Edition) -> bool {
    let kind_at = |place: usize| tokens.get(place).map_or(token::END, |found| found.kind);
    let one_before = if index >= 1 {
        kind_at(index - 1)
    } else {
        token::END
    };
    let two_before = if index >= 2 {
        kind_at(index - 2)
    } else {
        token::END
    };
    let after = kind_at(index + 1);
    let before_brace = asked("N: an IDENT is before `{`", after == token::OPEN_BRACE);
    let before_bracket = asked("N: an IDENT is before `[`", after == token::OPEN_BRACKET);
    let before_body = before_brace || (before_bracket && edition.struct_takes_list());
    let after_bar = two_before == token::COLON && one_before == token::BAR;
    asked(
        "N: an IDENT is after `:` and before `{` or `[`",
        one_before == token::COLON && before_body,
    ) || asked("N: an IDENT is after `:` `|`", after_bar)
}

/// "Names compare with `::` read as `__`, so `a::b` equals `a__b`."
fn compared_form(name: &[u8]) -> Vec<u8> {
    name.iter()
        .map(|byte| if *byte == b':' { b'_' } else { *byte })
        .collect()
}
