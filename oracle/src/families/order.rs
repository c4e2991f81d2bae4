//! Cases in which more than one refusal would fit: which comes first.

use super::tables::too_deep;
use crate::cases::Case;
use crate::settings::SOURCE_LIMIT;

/// Every pair of refusals that can occur together.
pub fn pairs() -> Vec<Case> {
    let mut cases = short();
    cases.extend(six_and_seven());
    cases.extend(too_long());
    cases
}

/// A program, no program and one that is too deep, each with and without a
/// fault at the end or the front, a bad list, and too little room.
fn short() -> Vec<Case> {
    let programs = [": i x 1".to_string(), ": i x )".to_string(), too_deep()];
    let mut cases = Vec::new();
    for program in &programs {
        for fault in ["", " ,", " `", " , `", " ` ,"] {
            for list in ["Foo", "Foo\ni"] {
                let source = format!("{program}{fault}");
                let case = Case::with_names(source, list);
                cases.push(case.clone());
                cases.push(case.clone().token_table(10));
                cases.push(case.clone().tree_table(6));
                cases.push(case.token_table(10).tree_table(6));
            }
        }
        cases.push(Case::new(format!(", {program}")).token_table(0));
        cases.push(Case::new(format!("` {program}")).tree_table(0));
    }
    cases
}

/// Of 6 and 7 the one met first in the source.
fn six_and_seven() -> Vec<Case> {
    let deep = too_deep();
    let sources = [
        format!(") {deep}"),
        format!("{deep} )"),
        deep.replace('1', ")"),
        deep.replace("1 }", "1 ) }"),
        format!(": i x {deep}"),
        format!(": i x 1 {deep} : i x"),
    ];
    let cases = sources.iter().map(Case::new);
    cases.map(|case| case.tree_table(9)).collect()
}

/// A source that is one byte too long, with each other refusal.
fn too_long() -> Vec<Case> {
    let pieces: [&[u8]; 6] = [
        b"$``//xxxxxxxxxxxx",
        b", $``//xxxxxxxxxx",
        b"` $``//xxxxxxxxxx",
        b";//xxxxxxxxxxxxxx",
        b": i abcdefg 12345",
        b": i abcdefg 1234`",
    ];
    let mut cases = Vec::new();
    for piece in pieces {
        let case = Case::new(piece).repeated((SOURCE_LIMIT + 1) / piece.len());
        let case = case.token_table(100).tree_table(41);
        cases.push(case.clone());
        cases.push(case.clone().names("Foo\ni"));
        cases.push(case.clone().token_table(2));
        cases.push(case.tree_table(3));
    }
    // 1,048,577 is 17 times 61,681: a whole nesting must fit into the piece.
    let mut deep = too_deep().into_bytes();
    deep.push(10);
    deep.resize(61_681, b' ');
    let case = Case::new(deep).repeated(17);
    cases.push(case.token_table(700).tree_table(41));
    cases
}
