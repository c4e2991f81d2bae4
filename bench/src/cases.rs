//! The inputs that both readers are given, told apart by a seed and an index.

/// One input: a source, extra type names, and the lengths of both tables in
/// numbers.
#[derive(Clone, Debug, PartialEq, Eq)]
pub struct Case {
    pub source: Vec<u8>,
    pub names: Vec<u8>,
    pub tokens: usize,
    pub rows: usize,
}

/// A generated input: a program or a damaged one, random tokens or bytes, with
/// good and bad names and tables of every length.
pub fn case(seed: u64, index: u64) -> Case {
    let generated = oracle::generate::case(seed, index);
    Case {
        source: generated.source(),
        names: generated.names,
        tokens: generated.token_length,
        rows: generated.tree_length,
    }
}
