//! The generated cases: they are within the test program's limits, they can be
//! read back, they are the same on every run, and some of their answers.

mod support;
use oracle::answer::Answer;
use oracle::cases::*;
use oracle::families::{all_cases, cases_of, input_file, names, output_file};
use oracle::kinds::row;
use oracle::scripts::SCRIPTS;
use oracle::settings::SOURCE_LIMIT;
use std::sync::OnceLock;
use support::*;

/// The output file, made once for all tests here.
fn stored_output() -> &'static str {
    static OUTPUT: OnceLock<String> = OnceLock::new();
    OUTPUT.get_or_init(output_file)
}

#[test]
fn the_cases_are_within_the_limits() {
    let cases = all_cases();
    assert!(cases.len() > 7_000, "{}", cases.len());
    for case in &cases {
        assert!(case.repeats >= 1);
        assert!(case.piece.len() <= LONGEST_PIECE);
        assert!(case.piece.len() * case.repeats <= LONGEST_SOURCE);
        assert!(case.names.len() <= LONGEST_NAME_LIST);
        assert!(case.token_length <= LARGE_TOKEN_TABLE);
        assert!(case.tree_length <= LONGEST_TREE_TABLE);
    }
    let is_long = |case: &&Case| case.token_length > LONGEST_TOKEN_TABLE;
    let long_tables: Vec<&Case> = cases.iter().filter(is_long).collect();
    let large = family("large sources");
    assert_eq!(
        long_tables,
        large.iter().filter(is_long).collect::<Vec<_>>()
    );
    assert!(input_file().len() <= LONGEST_FILE);
    assert!(stored_output().len() <= 3_400_000);
}

#[test]
fn every_family_has_cases_and_a_name_of_its_own() {
    let names = names();
    for (index, name) in names.iter().enumerate() {
        assert!(!cases_of(index).is_empty(), "{name}");
        assert!(!names[..index].contains(name), "{name}");
    }
}

#[test]
fn the_files_are_the_same_on_every_run() {
    assert_eq!(input_file(), input_file());
    assert_eq!(output_file(), stored_output());
}

/// Reads one number of a header, which ends with a space or byte 10.
fn header_number(bytes: &mut &[u8]) -> usize {
    let end = bytes.iter().position(|byte| matches!(byte, 32 | 10));
    let (digits, rest) = bytes.split_at(end.unwrap());
    *bytes = &rest[1..];
    std::str::from_utf8(digits).unwrap().parse().unwrap()
}

#[test]
fn the_input_file_can_be_read_back() {
    let file = input_file();
    let mut rest = &file[..];
    let mut cases = Vec::new();
    while !rest.is_empty() {
        let piece_length = header_number(&mut rest);
        let repeats = header_number(&mut rest);
        let names_length = header_number(&mut rest);
        let token_length = header_number(&mut rest);
        let tree_length = header_number(&mut rest);
        let piece = rest[..piece_length].to_vec();
        rest = &rest[piece_length..];
        let names = rest[..names_length].to_vec();
        assert_eq!(rest[names_length], 10);
        rest = &rest[names_length + 1..];
        cases.push(Case {
            piece,
            repeats,
            names,
            token_length,
            tree_length,
        });
    }
    assert_eq!(cases, all_cases());
}

#[test]
fn the_output_has_one_answer_for_each_case() {
    let output = stored_output();
    let is_answer = |line: &&str| line.starts_with("accepted ") || line.starts_with("refused ");
    let answers = output.lines().filter(is_answer).count();
    let trees = output.lines().filter(|line| *line == "tree").count();
    assert_eq!(answers, all_cases().len());
    assert_eq!(trees, answers);
    assert!(output.ends_with('\n'));
}

/// The output of a case with tables of these lengths.
fn output(source: &str, names: &str, tokens: usize, tree: usize) -> String {
    let case = Case::new(source).names(names);
    case.token_table(tokens).tree_table(tree).output()
}

#[test]
fn outputs_of_accepted_cases() {
    let expected = "accepted 4 4\n12 0 1\n2 2 1\n1 4 5\n5 10 3\nunchanged 1\n900015\n\
                    tree\n1 0 4 4\n9 0 4 3\n39 1 1 1\n21 3 1 1\nunchanged 1\n\
                    700020 700021 700022\n";
    assert_eq!(output(": i floor -40", "", 16, 23), expected);
    let expected = "accepted 4 4\n12 0 1\n2 2 1\n1 4 5\n5 10 3\n\
                    tree\n1 0 4 4\n9 0 4 3\n39 1 1 1\n21 3 1 1\n";
    assert_eq!(output(": i floor -40", "Foo", 12, 16), expected);
    assert_eq!(output("", "", 0, 4), "accepted 0 1\ntree\n1 0 0 1\n");
    let expected = "accepted 0 1\nunchanged 2\n900006 900007\ntree\n1 0 0 1\n700004\n";
    assert_eq!(output(" // none", "", 8, 5), expected);
}

#[test]
fn outputs_of_refusals_after_the_tokens() {
    let tokens = "12 0 1\n2 2 1\n1 4 1\n31 6 1\n5 8 1\n";
    let expected = format!("refused 6 3\n{tokens}tree\nzero 2\n700008\n");
    assert_eq!(output(": i a - 4", "", 15, 9), expected);
    let expected = format!("refused 6 3\n{tokens}unchanged 1\n900018 900019\ntree\n700000\n");
    assert_eq!(output(": i a - 4", "", 20, 1), expected);
    let tokens = "12 0 1\n2 2 1\n1 4 1\n5 6 1\n";
    let expected = format!("refused 8 4\n{tokens}tree\nzero 3\n700012 700013 700014\n");
    assert_eq!(output(": i a 1", "", 12, 15), expected);
    let expected = "refused 8 1\ntree\n700000 700001 700002\n";
    assert_eq!(output("", "", 0, 3), expected);
}

#[test]
fn outputs_of_refusals_before_the_tokens() {
    let expected = "refused 5 1\n900000 900001\ntree\nunchanged 1\n700004\n";
    assert_eq!(output("a", "", 2, 5), expected);
    let expected = "refused 2 4\nunchanged 1\ntree\nunchanged 1\n";
    assert_eq!(output(",", "Foo\ni", 3, 4), expected);
    assert_eq!(output("a `", "", 0, 0), "refused 4 2\ntree\n");
    assert_eq!(output("a ,", "", 0, 1), "refused 3 2\ntree\n700000\n");
    let long = Case::new(" ").repeated(1_048_577).names("i");
    let expected = "refused 1 0\nunchanged 1\n900003\ntree\nunchanged 1\n";
    assert_eq!(long.token_table(4).tree_table(4).output(), expected);
}

/// The cases of one family, by its name.
fn family(name: &str) -> Vec<Case> {
    let index = names().iter().position(|found| *found == name);
    cases_of(index.unwrap())
}

/// The answers of one family, by its name.
fn answers_of(name: &str) -> Vec<Answer> {
    family(name).iter().map(|case| case.run().0).collect()
}

fn accepted(tokens: u32, rows: u32) -> Answer {
    Answer::Accepted { tokens, rows }
}

fn refused(number: u32, place: u32) -> Answer {
    Answer::Refused { number, place }
}

#[test]
fn the_longest_sources_meet_their_answers() {
    let mut answers = answers_of("longest sources");
    answers.extend(answers_of("longest programs"));
    for expected in [
        accepted(0, 1),
        accepted(4, 4),
        accepted(256, 193),
        accepted(1_200, 901),
        refused(1, 0),
        refused(2, 4),
        refused(3, 1),
        refused(4, 1_048_575),
        refused(4, 1_048_574),
        refused(5, 1_048_576),
        refused(5, 524_288),
        refused(5, 349_525),
        refused(5, 256),
        refused(6, 0),
        refused(8, 193),
        refused(8, 901),
    ] {
        assert!(answers.contains(&expected), "{expected:?}");
    }
}

/// The kinds of the tree rows of a large source, with the token count, when
/// it is read with room for all its rows.
fn large_reading(case: &Case) -> (usize, Vec<u32>) {
    let (answer, _, tree) = case.clone().tree_table(1_600_000).run();
    match answer {
        Answer::Accepted { tokens, rows } => {
            let rows = tree.chunks_exact(4).take(rows as usize);
            (tokens as usize, rows.map(|row| row[0]).collect())
        }
        refused => panic!("{refused:?}"),
    }
}

#[test]
fn the_large_sources_are_full_of_what_they_are_for() {
    let cases = family("large sources");
    let most = [
        (row::LET, 70_336),
        (row::VARIANT, 249_904),
        (row::CONSTANT, 4_096),
        (row::CONSTANT, 4_112),
        (row::BLOCK, 102_272),
    ];
    assert_eq!(cases.len(), most.len());
    for (case, (kind, count)) in cases.iter().zip(most) {
        assert_eq!(case.piece.len() * case.repeats, SOURCE_LIMIT);
        let (tokens, kinds) = large_reading(case);
        assert!(tokens <= 250_000, "{tokens}");
        assert_eq!(case.token_length, (tokens + 3) * 3 + 2);
        assert_eq!(kinds.iter().filter(|found| **found == kind).count(), count);
    }
}

#[test]
fn the_large_sources_lack_only_room_in_the_tree_table() {
    let rows = [177_313, 249_921, 12_289, 12_337, 103_361];
    assert_eq!(
        answers_of("large sources"),
        rows.map(|rows| refused(8, rows))
    );
}

#[test]
fn faults_after_a_full_table_are_never_5() {
    let answers = answers_of("faults after a full table");
    let fives = answers
        .iter()
        .filter(|answer| matches!(answer, Answer::Refused { number: 5, .. }));
    // The only fives are those where the fault is inside a comment.
    assert_eq!(fives.count(), 4);
}

#[test]
fn valid_programs_and_scripts_are_accepted() {
    for answer in answers_of("small programs") {
        assert!(matches!(answer, Answer::Accepted { .. }), "{answer:?}");
    }
    for script in SCRIPTS {
        let answer = answer_with(script, "");
        assert!(
            matches!(answer, Answer::Accepted { .. }),
            "{script}\n{answer:?}"
        );
    }
}

#[test]
fn nestings_are_accepted_refused_twice_and_refused_6() {
    for name in ["nested types", "nested expressions", "nested statements"] {
        for four in answers_of(name).chunks(4) {
            assert!(matches!(four[0], Answer::Accepted { .. }), "{four:?}");
            let numbers: Vec<u32> = four[1..]
                .iter()
                .map(|answer| match answer {
                    Answer::Refused { number, .. } => *number,
                    Answer::Accepted { .. } => 0,
                })
                .collect();
            assert_eq!(numbers, [7, 7, 6], "{name}");
        }
    }
}
