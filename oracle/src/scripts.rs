//! Whole programs in the style of the samples of grammar 1.7, from which cases
//! are made. Each of them is accepted.

/// The programs.
pub const SCRIPTS: [&str; 12] = [
    CONSTANTS, BANDS, SCHEDULE, EVENTS, TRAITS, GENERICS, FOREIGN, CLOSURES, MATCHES, OPERATORS,
    COMMENTS, RESULTS,
];

const CONSTANTS: &str = "\
// limits of the first band
: i low -40
: i high 60
: ~ i count 0
: f gain 1.5e-3
: f offset -0.5
: s title `first band\\n`
: b enabled T
: ~ b debug F
: Name other 0
";

const BANDS: &str = "\
: Band { i low i high }
: Bands { [ Band items i count }

@ inside Band band i value → b {
    & >= value . band low <= value . band high
}

@ defaults → [ i {
    ^ [ i | -40 60 -5 25 ]
}

@ widen *Band band i step → v {
    = . band low - . band low step
    = . band high + . band high step
}
";

const SCHEDULE: &str = "\
$ `stdlib/core/string`
$ `stdlib/core/mem` m

: Entry { i hour i minute i level }

@ total [ Entry entries → i {
    : ~ i sum 0
    ~ entry entries { = sum + sum . entry level }
    ^ sum
}

@ run → v {
    : day ( m::alloc 24 )
    : ~ i hour 0
    ~ < hour 24 {
        ( set_level hour ? < hour 6 16 21 )
        = hour + hour 1
    }
    ; { ( m::release day ) }
}
";

const EVENTS: &str = "\
: | Event { Click i i KeyPress i s Close }
: | Color { Red Green Blue }
: | Shape { Circle f Rect f f Many [ Shape Other *Shape }
: Point { i x i y }
: | Place { At Point From T Nowhere }
";

const TRAITS: &str = "\
% Shape [T] {
    @ area T obj → i
    @ print_info T obj → i {
        ( nurl_print ( nurl_str_int ( area obj ) ) )
        ^ ( area obj )
    }
}
% Stringify i { @ stringify i n → s { ^ ( nurl_str_int n ) } }
% Drop Band { @ drop Band self → v { } }
% Each [ A B ] ( Pair A B ) { @ each [K] K key → v { } }
% List [ T { }
";

const GENERICS: &str = "\
: Vec [T] { *T data i len i cap }
: Pair [A B] { A first B second }
@ id [T] T x → T { ^ x }
@ swap [ A B ] ( Pair A B ) pair → ( Pair B A ) {
    ^ @ ( Pair B A ) { . pair second . pair first }
}
@ use_them → v {
    : ( Vec i ) xs @ ( Vec i ) { 0 0 0 }
    : n ( id [i] 42 )
    : p ( alloc [Vec] 16 )
    : size * Z ( Vec i ) 4
}
";

const FOREIGN: &str = "\
& `libc` @ puts s msg → i
& `libm` @ sqrt f → f
& `libc` @ memcpy *u *u i → *v
& `runtime` @ spawn ( @ v ) *u env → ! i s
@ raw ( @ i i ) closure → *u {
    : env # *u closure 1
    ^ # *u closure 0
}
";

const CLOSURES: &str = "\
@ make i x → ( @ i i ) {
    : ( @ i i ) square \\ i y → i { * y y }
    : (@ v) printer \\ → v { ( nurl_print `hello` ) }
    : typed \\ Band band → i { . band low }
    : many \\ *u p ? i o [ i xs ! i s r → v { }
    : taken \\ ( @ i ) g → i { ( g ) }
    ^ square
}
";

const MATCHES: &str = "\
@ text Json val → s {
    ^ ?? val {
        JNull → `null`
        JNum n → ( nurl_str_int n )
        KeyPress c m → ( key_event c m )
        Ok 200 → `ok`
        Three a -1 c → { `three` }
        _ → `other`
    }
}
@ unwrap ? i opt → i { ?? opt { T x → x F → 0 } }
";

const OPERATORS: &str = "\
@ all i a i n → v {
    : r1 + a * a - a / a % a 2
    : r2 & > a 0 < a 10
    : r3 | == a 1 != a -1
    : r4 & <= a 5 >= a -5
    : r5 << 1 >> a 8
    : r6 ! ~ a
    ~ a
    ~ 0
    ^ ? > a 0 `positive` `non-positive`
}
";

const COMMENTS: &str = "\
//first line, glued
@ g → v { // , and ` inside
    : x 5-3// 5 and then -3
    x // last\r
}//
// an end without a line feed";

const RESULTS: &str = "\
@ parse s src → ! i s {
    : n \\ ( parse_int src )
    : val \\ ( find map key )
    = total + total \\ n
    = . xs 0 val
    = . . p inner + k 1 -2.5E+3
    ^ @ ! i s { T n }
}
";
