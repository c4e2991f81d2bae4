//! Cases made of whole programs, of programs with a change, and of random
//! tokens and bytes.

use crate::cases::{Case, Needed};
use crate::generate::change::BYTES_OF_INTEREST;
use crate::kinds::token::MARKS;
use crate::random::Random;
use crate::scripts::SCRIPTS;
use crate::settings::BASE;
use crate::tokens::scan;

/// How many cases each family of changed programs has.
const CHANGED: usize = 32;

/// How many cases each family of random sources has.
const RANDOM: usize = 100;

/// Every program as it is, with exactly room and with one row too few.
pub fn scripts() -> Vec<Case> {
    let mut cases = Vec::new();
    for script in SCRIPTS {
        let needed = Needed::of(script.as_bytes(), b"").token_length();
        cases.push(Case::new(script).names("Json\nm::Name"));
        cases.push(Case::new(script).token_table(needed));
        cases.push(Case::new(script).token_table(needed - 1));
    }
    cases
}

/// A program, as bytes that can be changed.
fn any_script(random: &mut Random) -> Vec<u8> {
    random.pick(&SCRIPTS).as_bytes().to_vec()
}

/// A case of a source with room, now and then with a little more or less.
fn with_some_room(source: Vec<u8>, random: &mut Random) -> Case {
    let needed = Needed::of(&source, b"").token_length();
    let length = match random.below(8) {
        0 => needed.saturating_sub(1),
        1 => needed / 2,
        more => needed + more - 2,
    };
    Case::new(source).token_table(length)
}

/// Cases of programs, each changed at a random place.
fn changed_scripts(random: &mut Random, change: fn(&mut Vec<u8>, &mut Random)) -> Vec<Case> {
    let mut cases = Vec::new();
    for _ in 0..CHANGED {
        let mut source = any_script(random);
        change(&mut source, random);
        cases.push(with_some_room(source, random));
    }
    cases
}

pub fn byte_deleted(random: &mut Random) -> Vec<Case> {
    changed_scripts(random, |source, random| {
        let place = random.below(source.len());
        source.remove(place);
    })
}

pub fn byte_inserted(random: &mut Random) -> Vec<Case> {
    changed_scripts(random, |source, random| {
        let place = random.below(source.len() + 1);
        let byte = random.pick(BYTES_OF_INTEREST);
        source.insert(place, byte);
    })
}

pub fn byte_replaced(random: &mut Random) -> Vec<Case> {
    changed_scripts(random, |source, random| {
        let place = random.below(source.len());
        source[place] = random.pick(BYTES_OF_INTEREST);
    })
}

pub fn cut_off(random: &mut Random) -> Vec<Case> {
    changed_scripts(random, |source, random| {
        let length = random.below(source.len());
        source.truncate(length);
    })
}

pub fn tokens_swapped(random: &mut Random) -> Vec<Case> {
    changed_scripts(random, |source, random| {
        let tokens = scan(source, BASE.edition).expect("a program has no fault");
        let first = random.below(tokens.len() - 1);
        let second = first + 1 + random.below(tokens.len() - first - 1);
        let (left, right) = (tokens[first], tokens[second]);
        let swapped = [
            &source[..left.start],
            right.text(source),
            &source[left.start + left.length..right.start],
            left.text(source),
            &source[right.start + right.length..],
        ]
        .concat();
        *source = swapped;
    })
}

/// Random tokens with random separators, mostly none, between them.
pub fn random_tokens(random: &mut Random) -> Vec<Case> {
    let others = [
        "a", "xx", "_", "i", "v", "T", "F", "Z", "m::xx", "0", "-7", "12", "1.5", "-2.5e-3",
        "1.0E+2", "e5", "`s`", "``", "::",
    ];
    let separators = ["", "", "", "", " ", "\n", "\t", "\r", " // c\n", "//\n"];
    let mut cases = Vec::new();
    for _ in 0..RANDOM {
        let mut source = String::new();
        for _ in 0..1 + random.below(14) {
            let texts: &[&str] = if random.below(2) == 0 {
                &others
            } else {
                &MARKS
            };
            source.push_str(random.pick(texts));
            source.push_str(random.pick(&separators));
        }
        cases.push(with_some_room(source.into_bytes(), random));
    }
    cases
}

pub fn random_bytes_of_interest(random: &mut Random) -> Vec<Case> {
    let mut cases = Vec::new();
    for _ in 0..RANDOM {
        let length = 1 + random.below(16);
        let source = (0..length).map(|_| random.pick(BYTES_OF_INTEREST));
        let source = source.collect();
        cases.push(with_some_room(source, random));
    }
    cases
}

pub fn random_bytes(random: &mut Random) -> Vec<Case> {
    let mut cases = Vec::new();
    for _ in 0..RANDOM {
        let length = 1 + random.below(6);
        let source = (0..length).map(|_| random.byte()).collect();
        cases.push(with_some_room(source, random));
    }
    cases
}
