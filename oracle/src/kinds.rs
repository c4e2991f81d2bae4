//! The numbers of the token kinds and of the row kinds, as the scope lists them.

/// Token kinds, 1 to 42.
pub mod token {
    /// Stands for "no token here": the place after the last token.
    pub const END: u32 = 0;

    pub const IDENT: u32 = 1;
    pub const KEYWORD: u32 = 2;
    pub const BOOLEAN: u32 = 3;
    pub const SIZEOF: u32 = 4;
    pub const INT: u32 = 5;
    pub const FLOAT: u32 = 6;
    pub const STR: u32 = 7;

    pub const DOLLAR: u32 = 8;
    pub const AMPERSAND: u32 = 9;
    pub const AT: u32 = 10;
    pub const PERCENT: u32 = 11;
    pub const COLON: u32 = 12;
    pub const BAR: u32 = 13;
    pub const EQUALS: u32 = 14;
    pub const SEMICOLON: u32 = 15;
    pub const TILDE: u32 = 16;
    pub const OPEN_BRACE: u32 = 17;
    pub const CLOSE_BRACE: u32 = 18;
    pub const OPEN_PAREN: u32 = 19;
    pub const CLOSE_PAREN: u32 = 20;
    pub const OPEN_BRACKET: u32 = 21;
    pub const CLOSE_BRACKET: u32 = 22;
    pub const BANG: u32 = 23;
    pub const CARET: u32 = 24;
    pub const BACKSLASH: u32 = 25;
    pub const QUESTION: u32 = 26;
    pub const DOT: u32 = 27;
    pub const HASH: u32 = 28;
    pub const STAR: u32 = 29;
    pub const PLUS: u32 = 30;
    pub const MINUS: u32 = 31;
    pub const SLASH: u32 = 32;
    pub const LESS: u32 = 33;
    pub const GREATER: u32 = 34;
    pub const EQUAL_EQUAL: u32 = 35;
    pub const NOT_EQUAL: u32 = 36;
    pub const AT_MOST: u32 = 37;
    pub const AT_LEAST: u32 = 38;
    pub const SHIFT_LEFT: u32 = 39;
    pub const SHIFT_RIGHT: u32 = 40;
    pub const DOUBLE_QUESTION: u32 = 41;
    pub const ARROW: u32 = 42;

    pub const LAST: u32 = ARROW;

    /// The marks in the scope's order. The first has kind 8.
    pub const MARKS: [&str; 35] = [
        "$", "&", "@", "%", ":", "|", "=", ";", "~", "{", "}", "(", ")", "[", "]", "!", "^", "\\",
        "?", ".", "#", "*", "+", "-", "/", "<", ">", "==", "!=", "<=", ">=", "<<", ">>", "??", "→",
    ];

    /// The kind of the first mark in `MARKS`.
    pub const FIRST_MARK: u32 = 8;
}

/// Row kinds, 1 to 46.
pub mod row {
    pub const PROGRAM: u32 = 1;
    pub const IMPORT: u32 = 2;
    pub const FOREIGN: u32 = 3;
    pub const TRAIT: u32 = 4;
    pub const IMPL: u32 = 5;
    pub const FUNCTION: u32 = 6;
    pub const STRUCT: u32 = 7;
    pub const ENUM: u32 = 8;
    pub const CONSTANT: u32 = 9;
    pub const HEADER: u32 = 10;
    pub const PARAMETER: u32 = 11;
    pub const VARIANT: u32 = 12;
    pub const NAME_LIST: u32 = 13;
    pub const BLOCK: u32 = 14;
    pub const LET: u32 = 15;
    pub const SET_NAME: u32 = 16;
    pub const SET_ELEMENT: u32 = 17;
    pub const DEFER: u32 = 18;
    pub const WHILE: u32 = 19;
    pub const FOREACH: u32 = 20;
    pub const LITERAL: u32 = 21;
    pub const NAME: u32 = 22;
    pub const BINARY: u32 = 23;
    pub const NOT: u32 = 24;
    pub const RETURN: u32 = 25;
    pub const COMPLEMENT: u32 = 26;
    pub const TRY: u32 = 27;
    pub const CLOSURE: u32 = 28;
    pub const SIZEOF: u32 = 29;
    pub const AGGREGATE: u32 = 30;
    pub const SLICE_LITERAL: u32 = 31;
    pub const CONDITIONAL: u32 = 32;
    pub const CALL: u32 = 33;
    pub const MEMBER: u32 = 34;
    pub const CAST: u32 = 35;
    pub const MATCH: u32 = 36;
    pub const ARM: u32 = 37;
    pub const PAYLOAD: u32 = 38;
    pub const BASE_TYPE: u32 = 39;
    pub const POINTER: u32 = 40;
    pub const OPTIONAL: u32 = 41;
    pub const SLICE_TYPE: u32 = 42;
    pub const RESULT: u32 = 43;
    pub const FUNCTION_TYPE: u32 = 44;
    pub const GENERIC_INSTANCE: u32 = 45;
    pub const NAMED_TYPE: u32 = 46;

    pub const LAST: u32 = NAMED_TYPE;
}

#[cfg(test)]
mod tests {
    use super::token::*;

    fn kind_of(mark: &str) -> u32 {
        let index = MARKS.iter().position(|m| *m == mark).unwrap();
        FIRST_MARK + index as u32
    }

    #[test]
    fn the_named_kinds_are_those_of_the_mark_list() {
        let pairs = [
            ("$", DOLLAR),
            ("&", AMPERSAND),
            ("@", AT),
            ("%", PERCENT),
            (":", COLON),
            ("|", BAR),
            ("=", EQUALS),
            (";", SEMICOLON),
            ("~", TILDE),
            ("{", OPEN_BRACE),
            ("}", CLOSE_BRACE),
            ("(", OPEN_PAREN),
            (")", CLOSE_PAREN),
            ("[", OPEN_BRACKET),
            ("]", CLOSE_BRACKET),
            ("!", BANG),
            ("^", CARET),
            ("\\", BACKSLASH),
            ("?", QUESTION),
            (".", DOT),
            ("#", HASH),
            ("*", STAR),
            ("+", PLUS),
            ("-", MINUS),
            ("/", SLASH),
            ("<", LESS),
            (">", GREATER),
            ("==", EQUAL_EQUAL),
            ("!=", NOT_EQUAL),
            ("<=", AT_MOST),
            (">=", AT_LEAST),
            ("<<", SHIFT_LEFT),
            (">>", SHIFT_RIGHT),
            ("??", DOUBLE_QUESTION),
            ("→", ARROW),
        ];
        assert_eq!(pairs.len(), MARKS.len());
        for (mark, kind) in pairs {
            assert_eq!(kind_of(mark), kind, "{mark}");
        }
    }
}
