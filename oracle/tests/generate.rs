//! The generator: what it calls valid is accepted, and it gives every answer.

mod support;
use oracle::answer::{read, Answer};
use oracle::generate::{case, program, small_program};
use oracle::random::Random;
use support::*;

#[test]
fn small_programs_are_accepted() {
    for index in 0..4_000 {
        let mut random = Random::seeded(7, index);
        let tokens = 1 + random.below(60);
        let written = small_program(&mut random, tokens);
        let source = written.tokens.join(" ");
        let answer = answer_with(&source, &written.names);
        let expected = written.tokens.len() as u32;
        assert!(
            matches!(answer, Answer::Accepted { tokens, .. } if tokens == expected),
            "{source}\n{}\n{answer:?}",
            written.names
        );
    }
}

#[test]
fn larger_programs_are_accepted_and_about_as_long_as_asked() {
    for (seed, about) in [(1, 0), (2, 300), (3, 5_000), (4, 65_535), (5, 300_000)] {
        let source = program(seed, about);
        assert!(source.len() >= about, "{}", source.len());
        assert!(source.len() < about + 4_000, "{}", source.len());
        assert_eq!(source, program(seed, about));
        let mut tokens = vec![0; source.len() * 3];
        let mut rows = vec![0; source.len() * 4];
        let answer = read(&source, b"", &mut tokens, &mut rows);
        assert!(matches!(answer, Answer::Accepted { .. }), "{answer:?}");
    }
    let longest = program(6, usize::MAX);
    assert!((1_040_000..=1_048_576).contains(&longest.len()));
}

#[test]
fn the_row_of_cases_has_every_answer_but_1() {
    let mut found = [0; 9];
    for index in 0..20_000 {
        let case = case(11, index);
        assert_eq!(case.repeats, 1);
        match case.run().0 {
            Answer::Accepted { .. } => found[0] += 1,
            Answer::Refused { number, .. } => found[number as usize] += 1,
        }
    }
    assert_eq!(case(11, 77), case(11, 77));
    assert_ne!(case(11, 77), case(12, 77));
    for number in [0, 2, 3, 4, 5, 6, 7, 8] {
        assert!(found[number] > 20, "{found:?}");
    }
    assert!(found[0] > 2_000, "{found:?}");
    assert_eq!(found[1], 0);
}
