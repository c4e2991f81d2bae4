//! What the cases cover: counts of token kinds, refusals, row kinds,
//! alternatives, conditions, answers past the level limit, and families.

use crate::answer::Answer;
use crate::cases::Case;
use crate::coverage::counters::{self, ByRow, Named};
use crate::families;
use crate::kinds::{row, token};
use crate::points::{ALTERNATIVES, CONDITIONS, LIMITS, LIMIT_ROWS};
use crate::settings::{ROW_WIDTH, TOKEN_WIDTH};

/// The counts over all cases. Index 0 of kinds and refusals stays unused.
pub struct Coverage {
    pub token_kinds: Vec<usize>,
    pub row_kinds: Vec<usize>,
    pub refusals: Vec<usize>,
    pub accepted: usize,
    pub named: Named,
    pub limit_rows: ByRow,
    pub families: Vec<(&'static str, usize)>,
}

/// Counts over all cases. What `coverage` counts stays empty without the cargo
/// feature.
pub fn coverage() -> Coverage {
    let mut families = Vec::new();
    let mut cases = Vec::new();
    for (index, name) in families::names().into_iter().enumerate() {
        let family = families::cases_of(index);
        families.push((name, family.len()));
        cases.extend(family);
    }
    let mut found = Coverage {
        token_kinds: vec![0; token::LAST as usize + 1],
        row_kinds: vec![0; row::LAST as usize + 1],
        refusals: vec![0; 9],
        accepted: 0,
        named: Named::new(),
        limit_rows: [0; row::LAST as usize + 1],
        families,
    };
    // What the making of the cases has passed does not count.
    counters::reset();
    for case in &cases {
        count_case(case, &mut found);
    }
    (found.named, found.limit_rows) = counters::found();
    found
}

fn count_case(case: &Case, found: &mut Coverage) {
    let (answer, tokens, tree) = case.run();
    match answer {
        Answer::Refused { number, place: _ } => found.refusals[number as usize] += 1,
        Answer::Accepted { tokens: _, rows } => {
            found.accepted += 1;
            for line in tree.chunks(ROW_WIDTH).take(rows as usize) {
                found.row_kinds[line[0] as usize] += 1;
            }
        }
    }
    let before = case.tokens_before();
    let lines = tokens.chunks_exact(TOKEN_WIDTH);
    for (line, line_before) in lines.zip(before.chunks_exact(TOKEN_WIDTH)) {
        if line != line_before {
            found.token_kinds[line[0] as usize] += 1;
        }
    }
}

/// The coverage as text, one count per line.
pub fn coverage_text() -> String {
    let found = coverage();
    let mut lines = counted_in_tables(&found);
    lines.extend(counted_by_name(&found));
    for (name, count) in &found.families {
        lines.push(format!("family {name}: {count}"));
    }
    let cases: usize = found.families.iter().map(|(_, count)| count).sum();
    lines.push(format!("cases: {cases}\n"));
    lines.join("\n")
}

fn counted_in_tables(found: &Coverage) -> Vec<String> {
    let mut lines = Vec::new();
    for (kind, count) in found.token_kinds.iter().enumerate().skip(1) {
        lines.push(format!("token kind {kind}: {count}"));
    }
    lines.push(format!("accepted: {}", found.accepted));
    for (number, count) in found.refusals.iter().enumerate().skip(1) {
        lines.push(format!("refusal {number}: {count}"));
    }
    for (kind, count) in found.row_kinds.iter().enumerate().skip(1) {
        lines.push(format!("row kind {kind}: {count}"));
    }
    lines
}

fn counted_by_name(found: &Coverage) -> Vec<String> {
    let mut lines = Vec::new();
    for name in ALTERNATIVES {
        let count = count_of(found, name, true);
        lines.push(format!("alternative {name}: {count}"));
    }
    for name in CONDITIONS {
        let held = count_of(found, name, true);
        let not_held = count_of(found, name, false);
        lines.push(format!("condition {name}, held: {held}"));
        lines.push(format!("condition {name}, did not hold: {not_held}"));
    }
    for (name, held) in LIMITS {
        let number = if *held { 7 } else { 6 };
        let count = count_of(found, name, *held);
        lines.push(format!("{name}, answer {number}: {count}"));
    }
    for kind in LIMIT_ROWS {
        let count = found.limit_rows[*kind as usize];
        lines.push(format!(
            "past the limit: row kind {kind}, answer 7: {count}"
        ));
    }
    lines
}

/// How often an alternative was taken, or a condition held or did not.
pub fn count_of(found: &Coverage, name: &str, held: bool) -> usize {
    found
        .named
        .get(name)
        .map_or(0, |counts| counts[usize::from(held)])
}
