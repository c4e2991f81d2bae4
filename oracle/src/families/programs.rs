//! Cases of valid programs made from the grammar at random, of such programs
//! with one change, and of random token lists.

use crate::cases::Case;
use crate::generate::change::{change_bytes, change_tokens, ByteChange, TokenChange};
use crate::generate::render::{any_spacing, render};
use crate::generate::writer::Written;
use crate::generate::{case, random_body, random_tokens, small_program, spaced};
use crate::random::{Random, SEED};

/// How many programs each kind of change is made to.
const CHANGED: usize = 150;

/// How many valid programs there are.
const VALID: usize = 220;

/// How many cases each family of random lists has.
const RANDOM: usize = 150;

/// How many cases there are of those that the library offers to others.
const MIXED: usize = 220;

/// Program number `index`, the same one in every family.
fn program(index: usize) -> Written {
    let mut random = Random::for_use(1_000 + index as u64);
    let tokens = 5 + random.below(if index.is_multiple_of(8) { 60 } else { 30 });
    small_program(&mut random, tokens)
}

/// Programs that are accepted.
pub fn valid(random: &mut Random) -> Vec<Case> {
    let mut cases = Vec::new();
    for index in 0..VALID {
        let written = program(index);
        let spacing = any_spacing(random);
        let source = render(&written.tokens, spacing, random);
        cases.push(Case::with_names(source, written.names));
    }
    cases
}

/// Programs with one token changed.
pub fn with_token(change: TokenChange, random: &mut Random) -> Vec<Case> {
    let mut cases = Vec::new();
    for index in 0..CHANGED {
        let mut written = program(index);
        change_tokens(&mut written.tokens, change, random);
        let source = spaced(&written.tokens, random);
        cases.push(Case::with_names(source, written.names));
    }
    cases
}

/// Programs with one byte changed.
pub fn with_byte(change: ByteChange, random: &mut Random) -> Vec<Case> {
    let mut cases = Vec::new();
    for index in 0..CHANGED / 2 {
        let written = program(index);
        let spacing = any_spacing(random);
        let mut source = render(&written.tokens, spacing, random);
        change_bytes(&mut source, change, random);
        cases.push(Case::with_names(source, written.names));
    }
    cases
}

/// Random token lists.
pub fn token_lists(random: &mut Random) -> Vec<Case> {
    let lists = (0..RANDOM).map(|_| {
        let tokens = random_tokens(random, 12);
        Case::new(spaced(&tokens, random))
    });
    lists.collect()
}

/// Random token lists inside a function.
pub fn bodies(random: &mut Random) -> Vec<Case> {
    let lists = (0..RANDOM).map(|_| {
        let tokens = random_body(random, 10);
        Case::with_names(spaced(&tokens, random), "Band")
    });
    lists.collect()
}

/// The first cases of the row that the library offers for a longer run.
pub fn mixed(_: &mut Random) -> Vec<Case> {
    (0..MIXED).map(|index| case(SEED, index as u64)).collect()
}
