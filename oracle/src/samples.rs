//! The sample programs and fragments of the source documents 005, 006, 008 and
//! 009, copied as they stand, each with the place where it belongs. Document
//! 006 has the samples of 005 on one line each, comments and all; 008 has most
//! of those of 009.

/// Where a sample belongs.
#[derive(Clone, Copy, Debug, PartialEq, Eq)]
pub enum Place {
    /// One or more declarations.
    Program,
    /// The methods of a trait.
    Methods,
    /// Statements or expressions.
    Body,
    /// The arms of a match.
    Arms,
    /// A type.
    Type,
    /// A name or a literal.
    Word,
}

/// A sample.
pub struct Sample {
    pub place: Place,
    pub text: &'static str,
}

impl Sample {
    /// The sample on one line, as document 006 has it.
    pub fn on_one_line(&self) -> String {
        let words: Vec<&str> = self.text.split_whitespace().collect();
        words.join(" ")
    }

    /// The sample at its place in a program.
    pub fn wrapped(&self) -> String {
        let text = self.text;
        match self.place {
            Place::Program => format!("{text}\n"),
            Place::Methods => format!("% Tr {{ {text}\n}}"),
            Place::Body | Place::Word => format!("@ g → v {{ {text}\n}}"),
            Place::Arms => format!("@ g → v {{ ?? r {{ {text}\n}} }}"),
            Place::Type => format!("@ g {text} x → {text} {{ }}"),
        }
    }
}

const fn program(text: &'static str) -> Sample {
    let place = Place::Program;
    Sample { place, text }
}

const fn body(text: &'static str) -> Sample {
    let place = Place::Body;
    Sample { place, text }
}

const fn at(place: Place, text: &'static str) -> Sample {
    Sample { place, text }
}

/// The samples of document 005, which are those of 006 on more than one line.
pub const README: &[Sample] = &[
    body("OP ARG1 ARG2 ... ARGN"),
    at(Place::Type, "*T"),
    at(Place::Type, "?T"),
    at(Place::Type, "! T E"),
    program("@ add i a i b → i { ^ + a b }"),
    body("? > x 0\n  `positive`\n  `non-positive`"),
    body(": i n 0\n~ < n 10 {\n  = n + n 1\n}"),
    program(
        ": Point { i x  i y }\n\n@ dist Point p → f {\n  ^ + * . p x . p x\n      * . p y . p y\n}",
    ),
    body("( add 3 4 )\n( dist myPoint )"),
    body(
        ": i x 10            // immutable — reassignment is a compile error\n\
         : ~ i counter 0     // mutable — ~ prefix\n= counter + counter 1",
    ),
    program(
        ": | Json { JNull  JBool b  JNum i  JStr s }\n\n@ describe Json v → s {\n  ^ ?? v {\n      \
         JNull  → `null`\n      JBool x → ? x `true` `false`\n      \
         JNum n → ( nurl_str_int n )\n      JStr s → s\n    }\n}",
    ),
    body(": [i nums [ i | 1 2 3 4 5 ]\n: i total 0\n~ n nums { = total + total n }"),
    body(": (@ i i) square \\ i x → i { * x x }\n( apply square 7 )          // 49"),
    program(
        "@ parse s src → ! i ParseErr { ... }\n\n@ sum_two s a s b → ! i ParseErr {\n  \
         : i x \\ ( parse a )       // `\\` unwraps Ok, propagates Err\n  \
         : i y \\ ( parse b )\n  ^ @ ! i ParseErr { + x y }\n}",
    ),
    program(
        "% Shape [T] {\n  @ area T obj → i                 // required\n  \
         @ describe T obj → i {           // default body\n    \
         ( nurl_print ( nurl_str_int ( area obj ) ) )\n    ^ 0\n  }\n}\n\n\
         % Shape Rect { @ area Rect r → i { ^ * . r w . r h } }",
    ),
    program(
        "@ sumto i n → i {\n  : i acc 0\n  : i k   1\n  \
         ~ <= k n { = acc + acc k  = k + k 1 }\n  ^ acc\n}",
    ),
    body(": i n expr"),
    body("~ 0"),
    body("- 0 n"),
    at(Place::Word, "-1"),
];

/// The fragments that stand in the text of document 006 alone.
pub const README_TEXT: &[Sample] = &[
    body(": i x 0"),
    body(": ~ i x 0"),
    body("{ s ptr, i len }"),
    program(": Fat { s ptr i len }"),
    at(Place::Type, "[T"),
    body("@ T { ... }"),
    body("[ T | ... ]"),
    at(Place::Arms, "ClientErr 404 → …"),
    at(Place::Arms, "ClientErr 404 → 1"),
    at(Place::Type, "(@ R P*)"),
    at(Place::Type, "(@ R P)"),
    body("@ ! T E { T val }"),
    body("@ ! T E { F err }"),
    body("\\ param* → T { body }"),
    body("\\ i param → T { body }"),
    program("$ `path` alias"),
    program("$ \\`path\\` alias"),
    at(Place::Word, "mod::symbol"),
    at(Place::Word, "a::b"),
    at(Place::Word, "a__b"),
    at(Place::Word, "mod__sym"),
    body("?? some_opt { T v → v F → 0 }"),
    body("?? some_opt { T val → val F → 0 }"),
    program("% Drop T { @ drop T self → v { … } }"),
    program("% Drop T { @ drop T self → v { } }"),
    at(Place::Type, "@ R P*"),
];

/// The samples of documents 008 and 009.
pub const GRAMMAR: &[Sample] = &[
    body("# *u closure 0"),
    body("# *u closure 1"),
    at(Place::Type, "*u"),
    body("[u | ... ]"),
    body("[u | ]"),
    program("$ `stdlib/core/string`"),
    program("$ `stdlib/core/mem` m"),
    body("( m::alloc 16 )"),
    program("& `libc` @ puts s msg → i"),
    program("& `libm` @ sqrt f → f"),
    program("@ id [T] T x → T { ^ x }"),
    program(": Point { i x i y }"),
    program(": String { s sb }"),
    program(": Vec [T] { *T data i len i cap }"),
    program(": Pair [A B] { A first B second }"),
    program(": | Color { Red Green Blue }"),
    program(": | Event { Click i i KeyPress i s Close }"),
    program(": | Json { JNull JBool b JNum i }"),
    program(": i MAX_CONN 100"),
    program(": ~ i counter 0"),
    program(": s GREETING `hello`"),
    program(": ~ b debug_mode F"),
    program(
        "% Shape [T] {\n@ area T obj → i\n@ print_info T obj → i {\n\
         ( nurl_print ( nurl_str_int ( area obj ) ) )\n^ ( area obj )\n}\n}",
    ),
    at(Place::Methods, "@ area T obj → i"),
    program("% Stringify i { @ stringify i n → s { ^ ( nurl_str_int n ) } }"),
    body("( stringify 42 )"),
    body(": i n 0"),
    body(": ~ i x 0"),
    body(": String s ( string_new )"),
    body(": String text ( string_new )"),
    body(": n ( add 1 2 )"),
    body("= n + n 1"),
    body("= . p x 42"),
    body("= . buf 0 val"),
    body("= . xs i val"),
    body("= . xs k val"),
    body("; { ( nurl_sym_pop syms ) }"),
    body("~ val nums { = total + total val }"),
    body("~ w words { ( nurl_print w ) }"),
    body("-5"),
    body("- a b"),
    body("- a c"),
    body("+ a b * x 2 == n 0"),
    body("+ a c * x 2 == n 0"),
    body("- x 5"),
    body("* -3 n"),
    body("& > x 0 < x 10"),
    body("& 255 n"),
    body("<< 1 n"),
    body(">> x 8"),
    body("^ + a b"),
    body("~ 0"),
    body("~ 3.0"),
    body(": val \\ ( find map key )"),
    body(": n \\ ( parse_int src )"),
    body(": (@ i i) square \\ i x → i { * x x }"),
    body(": (@ v) printer \\ → v { ( nurl_print msg ) }"),
    body(": (@ i i) adder \\ i y → i { + x y }"),
    body("Z i"),
    body("Z Point"),
    body("? > x 0 `positive` `non-positive`"),
    body("? > x 0 { ( nurl_print `+` ) } {}"),
    body("( add 3 4 ) ( nurl_print `hello\\n` )"),
    body("( id [i] 42 )"),
    body("( alloc [Point] 16 )"),
    body("[ i | 10 20 30 ]"),
    body(". slice ptr"),
    body(". slice length"),
    body("@ ? i { T 42 }"),
    body("@ Rect { 3 7 }"),
    body("@ Rect { Pos 3 7 }"),
    body("@ Packet { Ping }"),
    body(". p x"),
    body(". buf 0"),
    body(". data idx"),
    body(". opt 1"),
    body("# *Point ( nurl_alloc 16 )"),
    body("# i ( some_fn )"),
    body(
        "?? val {\nJNull → `null`\nJNum n → ( nurl_str_int n )\nKeyPress c m → ( key_event c m )\n\
         Ok 200 → `ok`\n_ → `other`\n}",
    ),
    body("?? some_opt {\nT v → v\nF → 0"),
    body("?? some_opt {\nT some → some\nF → 0 }"),
    at(Place::Type, "( Vec i )"),
    at(Place::Type, "( Pair i s )"),
    at(Place::Word, "0 42 -7"),
    at(Place::Word, "3.14 1.0e10 6.022e23 1.5e-3 -0.5"),
    at(Place::Word, "`hello\\n`"),
    at(Place::Word, "`CRLF\\r\\n`"),
    at(Place::Word, "`use \\\\ for a backslash`"),
    at(Place::Word, "`\\d`"),
    at(Place::Word, "alias::name"),
    at(Place::Word, "outer::inner::leaf"),
    body(": s s ( nurl_str_cat a b )"),
    body(": s text ( nurl_str_cat a c )"),
    body(": [ i xs [ i | 1 2 3 ]"),
    body("= x <owned-call>"),
    body("~ IDENT expr { body }"),
    program("% Drop T { @ drop T self → v { … } }"),
];

/// Lines of the documents with their remarks, which are not part of the
/// language: the dash `—` begins no token.
pub const WITH_REMARKS: &[&str] = &[
    "i  — integer (64-bit, signed)",
    "*T — pointer to T",
    ":  — binding (variable / struct / enum / const decl)",
    "?? — pattern match (exhaustive)",
    "`  — string literal",
    "( m::alloc 16 ) — call alloc from the `m` module",
    "& `libm` @ sqrt f → f — no param name",
    ": Point { i x i y } — concrete",
    ": Vec [T] { *T data i len i cap } — generic 1-param",
    ": i MAX_CONN 100 — immutable global constant",
    ": String s ( string_new ) — explicit named type",
    "= . p x 42 — p.x = 42 (struct field)",
    "- x 5 — binary minus: x - 5",
    "~ 0 → -1 ~ 3.0 → -3.0",
    "Z i → 8 Z Point → sizeof(Point)",
    "# *u closure 0 — closure-field-extract: extract fn ptr",
    "[ i | 10 20 30 ] — slice of 3 i64 values",
    "( stringify 42 ) → call @stringify__i64",
    "-5 → INT token, value -5",
    "- a b → MINUS IDENT a IDENT b (binary subtraction)",
    "// immutable — reassignment is a compile error",
];
