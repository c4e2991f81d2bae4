//! That the inputs are what they are said to be: sources of each class are
//! accepted at their size, and tables that are said to be enough are enough.

use bench::cases::case;
use bench::classes::{CLASSES, SIZES};
use bench::large;
use bench::prepared::Prepared;
use nurl::{rows_enough, tokens_enough, NAMES_LIMIT, SOURCE_LIMIT};
use oracle::answer::{read, Answer};

#[test]
fn each_class_is_accepted_at_each_size() {
    for class in &CLASSES {
        for size in SIZES {
            // A source that is not accepted panics.
            let prepared = Prepared::new(class, size);
            assert_eq!(prepared.source.len(), size);
        }
        assert!(class.names().len() <= NAMES_LIMIT);
    }
}

#[test]
fn tables_that_are_enough_are_enough() {
    for index in 0..3_000 {
        let input = case(1, index);
        let mut tokens = vec![0; tokens_enough(input.source.len())];
        let mut rows = vec![0; rows_enough(input.source.len())];
        let answer = read(&input.source, &input.names, &mut tokens, &mut rows);
        let refused = matches!(answer, Answer::Refused { number: 5 | 8, .. });
        assert!(!refused, "input {index}: {answer:?}");
    }
}

#[test]
fn large_inputs_reach_the_limit_and_pass_it() {
    let lengths: Vec<usize> = (0..20).map(|n| large::case(1, n).source.len()).collect();
    assert!(lengths.contains(&SOURCE_LIMIT));
    assert!(lengths.contains(&(SOURCE_LIMIT + 1)));
}
