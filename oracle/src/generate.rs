//! Programs and cases made at random. `case` and `program` are for programs
//! that compare another reader with this one over many more cases than the
//! case file has; the families of the case file use the parts.
//!
//! Everything here depends on its arguments alone.

pub mod change;
mod declarations;
mod deep;
mod expressions;
pub mod render;
mod statements;
mod types;
pub mod vocabulary;
pub mod writer;

use crate::cases::{Case, Needed};
use crate::random::Random;
use crate::settings::{NAME_LIST_LIMIT, SOURCE_LIMIT};
use change::{change_bytes, change_tokens, BYTES_OF_INTEREST, BYTE_CHANGES, TOKEN_CHANGES};
pub use declarations::small_program;
pub use deep::deep_tokens;
use render::{any_spacing, render, render_lines, Spacing};
use vocabulary::{any_token, Text};

/// Case number `index` of an endless row of small cases for a seed: valid
/// programs, programs with a few tokens or bytes changed, random token lists,
/// nestings around the level limit and random bytes, with good and bad name
/// lists and tables of every size.
/// The case stands once (`repeats` is 1); its source is `piece`.
pub fn case(seed: u64, index: u64) -> Case {
    let mut random = Random::seeded(seed, index);
    let (source, names) = source_and_names(&mut random);
    let names = changed_names(names, &mut random);
    let needed = Needed::of(&source, &names);
    let token_length = table_length(needed.token_length(), &mut random);
    let tree_length = table_length(needed.tree_length(), &mut random);
    Case {
        piece: source,
        repeats: 1,
        names,
        token_length,
        tree_length,
    }
}

/// A valid program of about so many bytes (it may be some hundreds longer, but
/// never past the longest source), which needs no extra names: type
/// declarations, then mostly functions, laid out on lines with some comments.
pub fn program(seed: u64, about_bytes: usize) -> Vec<u8> {
    let mut random = Random::seeded(seed, 0);
    let mut layout = Random::seeded(seed, 1);
    let wanted = about_bytes.min(SOURCE_LIMIT);
    let mut source = Vec::with_capacity(wanted + 4_000);
    declarations::large_program(&mut random, |tokens| {
        let before = source.len();
        render_lines(tokens, &mut layout, &mut source);
        if source.len() > SOURCE_LIMIT {
            source.truncate(before);
            return true;
        }
        source.len() >= wanted
    });
    source
}

fn source_and_names(random: &mut Random) -> (Vec<u8>, Vec<u8>) {
    let tokens = 5 + random.below(45);
    let mut written = small_program(random, tokens);
    let kind = random.below(16);
    match kind {
        0 if random.once_in(3) => written.tokens = deep_tokens(random),
        0..=4 => {}
        5..=9 => {
            for _ in 0..1 + random.below(2) {
                let change = random.pick(&TOKEN_CHANGES);
                change_tokens(&mut written.tokens, change, random);
            }
        }
        10 | 11 => {}
        12 | 13 => written.tokens = random_tokens(random, 24),
        14 => written.tokens = random_body(random, 16),
        _ => {
            let length = random.below(24);
            let bytes = (0..length).map(|_| random.pick(BYTES_OF_INTEREST));
            return (bytes.collect(), Vec::new());
        }
    }
    let spacing = any_spacing(random);
    let mut source = render(&written.tokens, spacing, random);
    if matches!(kind, 10 | 11) {
        for _ in 0..1 + random.below(2) {
            let change = random.pick(&BYTE_CHANGES);
            change_bytes(&mut source, change, random);
        }
    }
    (source, written.names.into_bytes())
}

/// A random token list.
pub fn random_tokens(random: &mut Random, most: usize) -> Vec<Text> {
    let count = random.below(most + 1);
    (0..count).map(|_| any_token(random)).collect()
}

/// A random token list inside a function's braces.
pub fn random_body(random: &mut Random, most: usize) -> Vec<Text> {
    let mut tokens = vec!["@", "g", "→", "v", "{"];
    tokens.extend(random_tokens(random, most));
    tokens.push("}");
    tokens
}

/// The source of a random token list with single spaces.
pub fn spaced(tokens: &[Text], random: &mut Random) -> Vec<u8> {
    render(tokens, Spacing::Single, random)
}

/// Mostly the list as it is; sometimes more names, sometimes a bad list.
fn changed_names(mut names: Vec<u8>, random: &mut Random) -> Vec<u8> {
    match random.below(24) {
        0 => append_name(&mut names, b"val"),
        1 => append_name(&mut names, b"m__Band"),
        2 => append_name(&mut names, b"Red"),
        3 => names.push(10),
        4 => {
            let change = random.pick(&BYTE_CHANGES);
            change_bytes(&mut names, change, random);
        }
        5 if random.once_in(16) => {
            let length = NAME_LIST_LIMIT - 1 + random.below(3);
            names = vec![b'n'; length];
            names[random.below(length)] = 10;
        }
        _ => {}
    }
    names
}

fn append_name(names: &mut Vec<u8>, name: &[u8]) {
    if !names.is_empty() {
        names.push(10);
    }
    names.extend_from_slice(name);
}

/// The length of a table that needs so many numbers: mostly with room and
/// stray numbers, sometimes exactly, a little less, or next to nothing.
fn table_length(needed: usize, random: &mut Random) -> usize {
    match random.below(16) {
        0 => needed,
        1 => needed.saturating_sub(1 + random.below(4)),
        2 => random.below(5),
        3 => random.below(needed + 8),
        _ => needed + random.below(12),
    }
}
