//! The limits, the table widths and the edition of the grammar, all in one
//! place, so that a change to one of them is a change to this file.

/// The longest source that is read, in bytes (refusal 1).
pub const SOURCE_LIMIT: usize = 1_048_576;

/// The longest list of extra type names, in bytes (refusal 2).
pub const NAME_LIST_LIMIT: usize = 16_384;

/// Numbers in one row of the token table: kind, start byte, length.
pub const TOKEN_WIDTH: usize = 3;

/// Numbers in one row of the tree table: kind, first token, tokens covered,
/// rows in the subtree with itself.
pub const ROW_WIDTH: usize = 4;

/// The deepest level a row may stand at (refusal 7). The program row is level 1.
pub const LEVEL_LIMIT: u32 = 200;

/// The most payloads an arm of a match may have (rule 10).
pub const PAYLOAD_LIMIT: usize = 3;

/// What the desk program reads and lends.
pub const DESK_SOURCE_LIMIT: usize = 65_535;
pub const DESK_TOKEN_ROWS: usize = 5_000;
pub const DESK_TREE_ROWS: usize = 4_000;

/// The edition of the grammar. Each method is one point in which editions may
/// differ; everything else is the same for all of them.
#[derive(Clone, Copy, Debug, PartialEq, Eq)]
pub enum Edition {
    /// Grammar 1.7, source document 009.
    Grammar17,
}

impl Edition {
    /// Whether a `-` directly before a digit is part of the number.
    pub fn minus_joins_number(self) -> bool {
        match self {
            Edition::Grammar17 => true,
        }
    }

    /// Whether `<<` and `>>` are marks.
    pub fn has_shift_marks(self) -> bool {
        match self {
            Edition::Grammar17 => true,
        }
    }

    /// Whether a struct may have a bracketed list after its name.
    pub fn struct_takes_list(self) -> bool {
        match self {
            Edition::Grammar17 => true,
        }
    }

    /// Whether a cast to a pointer type may take a trailing INT (rule 8).
    pub fn cast_takes_int(self) -> bool {
        match self {
            Edition::Grammar17 => true,
        }
    }
}

/// What a reading may be told beside the source, the names and the tables.
#[derive(Clone, Copy, Debug, PartialEq, Eq)]
pub struct Settings {
    pub edition: Edition,
    pub level_limit: u32,
}

/// The settings of the base: grammar 1.7 and 200 levels.
pub const BASE: Settings = Settings {
    edition: Edition::Grammar17,
    level_limit: LEVEL_LIMIT,
};
