//! The families of generated cases, and the two files made of them.

mod bytes;
mod depths;
mod documented;
mod examples;
mod large;
mod limits;
mod order;
mod programs;
mod sampled;
mod scripted;
mod sweep;
mod tables;
mod type_names;
mod words;

use crate::cases::Case;
use crate::generate::change::{ByteChange, TokenChange};
use crate::random::Random;

/// A family of cases: what they are about, and how they are made.
pub struct Family {
    pub name: &'static str,
    build: fn(&mut Random) -> Vec<Case>,
}

const fn family(name: &'static str, build: fn(&mut Random) -> Vec<Case>) -> Family {
    Family { name, build }
}

/// How many families there are.
const COUNT: usize = LEXICAL.len() + WHOLE.len();

/// The family of this number, in the order of the case file.
pub fn family_of(index: usize) -> &'static Family {
    if index < LEXICAL.len() {
        &LEXICAL[index]
    } else {
        &WHOLE[index - LEXICAL.len()]
    }
}

/// The names of all families, in the order of the case file.
pub fn names() -> Vec<&'static str> {
    (0..COUNT).map(|index| family_of(index).name).collect()
}

/// The families that are about bytes and tokens.
const LEXICAL: [Family; 32] = [
    family("examples of bytes to tokens in the scope", |_| {
        examples::of_the_scope()
    }),
    family("examples of bytes to tokens in the readings", |_| {
        examples::of_the_readings()
    }),
    family("single bytes", |_| bytes::single()),
    family("bytes beside a letter", |_| bytes::beside(b"a")),
    family("bytes beside a digit", |_| bytes::beside(b"7")),
    family("bytes beside a minus", |_| bytes::beside(b"-")),
    family("bytes beside a space", |_| bytes::beside(b" ")),
    family("single marks", |_| bytes::single_marks()),
    family("pairs of marks", |_| bytes::pairs_of_marks()),
    family("cut arrows", |_| bytes::cut_arrows()),
    family("broken arrows", |_| bytes::broken_arrows()),
    family("words", |_| words::words()),
    family("joins", |_| words::joins()),
    family("ints", |_| words::ints()),
    family("floats", |_| words::floats()),
    family("strings", |_| words::strings()),
    family("comments", |_| words::comments()),
    family("faults in order", |_| limits::faults_in_order()),
    family("faults after a full table", |_| {
        limits::faults_after_a_full_table()
    }),
    family("table lengths", |_| limits::table_lengths()),
    family("longest sources", |_| limits::longest_sources()),
    family("name lists", |_| limits::name_lists()),
    family("names before the source", |_| {
        limits::names_before_the_source()
    }),
    family("scripts", |_| scripted::scripts()),
    family("scripts with a byte deleted", scripted::byte_deleted),
    family("scripts with a byte inserted", scripted::byte_inserted),
    family("scripts with a byte replaced", scripted::byte_replaced),
    family("scripts cut off", scripted::cut_off),
    family("scripts with tokens swapped", scripted::tokens_swapped),
    family("random tokens", scripted::random_tokens),
    family(
        "random bytes of interest",
        scripted::random_bytes_of_interest,
    ),
    family("random bytes", scripted::random_bytes),
];

/// The families that are about whole readings.
const WHOLE: [Family; 34] = [
    family("examples of the scope", |_| examples::readings_of_01()),
    family("examples of the readings", |_| examples::readings_of_03()),
    family("samples as they stand", |_| sampled::as_they_stand()),
    family("samples on one line", |_| sampled::on_one_line()),
    family("samples at their place", |_| sampled::at_their_place()),
    family("each kind after a prefix", |_| sweep::after_prefixes()),
    family("each kind at each place", |_| sweep::in_programs()),
    family("small programs", programs::valid),
    family("programs with a token deleted", |random| {
        programs::with_token(TokenChange::Deleted, random)
    }),
    family("programs with a token inserted", |random| {
        programs::with_token(TokenChange::Inserted, random)
    }),
    family("programs with a token replaced", |random| {
        programs::with_token(TokenChange::Replaced, random)
    }),
    family("programs with a token doubled", |random| {
        programs::with_token(TokenChange::Doubled, random)
    }),
    family("programs with two tokens swapped", |random| {
        programs::with_token(TokenChange::Swapped, random)
    }),
    family("programs cut off after a token", |random| {
        programs::with_token(TokenChange::CutOff, random)
    }),
    family("programs with a byte deleted", |random| {
        programs::with_byte(ByteChange::Deleted, random)
    }),
    family("programs with a byte inserted", |random| {
        programs::with_byte(ByteChange::Inserted, random)
    }),
    family("programs with a byte replaced", |random| {
        programs::with_byte(ByteChange::Replaced, random)
    }),
    family("programs cut off after a byte", |random| {
        programs::with_byte(ByteChange::CutOff, random)
    }),
    family("random token lists", programs::token_lists),
    family("random bodies", programs::bodies),
    family("mixed cases", programs::mixed),
    family("nested types", |_| depths::types()),
    family("nested expressions", |_| depths::expressions()),
    family("nested statements", |_| depths::statements()),
    family("rows at the level limit", |_| depths::at_the_limit()),
    family("type names of the list", |_| type_names::of_the_list()),
    family("type names of the source", |_| type_names::of_the_source()),
    family("lists with a source", |_| type_names::lists_and_sources()),
    family("token table room", |_| tables::token_room()),
    family("tree table room", |_| tables::tree_room()),
    family("longest programs", |_| tables::longest_programs()),
    family("refusals in order", |_| order::pairs()),
    family("large sources", |_| large::sources()),
    family("scripts of the documents", |_| documented::scripts()),
];

/// The cases of one family.
pub fn cases_of(index: usize) -> Vec<Case> {
    (family_of(index).build)(&mut Random::for_use(index as u64))
}

/// All cases, family by family.
pub fn all_cases() -> Vec<Case> {
    (0..COUNT).flat_map(cases_of).collect()
}

/// The input file of the test program.
pub fn input_file() -> Vec<u8> {
    all_cases().iter().flat_map(Case::input).collect()
}

/// The output the test program must print.
pub fn output_file() -> String {
    all_cases().iter().map(Case::output).collect()
}
