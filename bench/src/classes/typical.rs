//! The class `typical`: what a fitter writes. Structs, functions, lets with
//! keyword types, calls, conditionals, loops, strings and comments.

use super::{no_names, Class};

pub const TYPICAL: Class = Class {
    name: "typical",
    head: "$ `stdlib/core/string`\n: Band { i low i high s title }\n\n",
    piece,
    names: no_names,
};

fn piece(number: usize) -> String {
    let text = [BAND, INSIDE, MEAN, REPORT, APPLY][number % 5];
    text.replace("NN", &number.to_string())
}

const BAND: &str = "\
// zone NN: its band, its floor and its gain
: Zone_NN { i room Band band f gain }
: i floor_NN -40
: ~ f gain_NN 1.5e-3
: s title_NN `corridor NN`

";

const INSIDE: &str = "\
@ inside_NN Band band i value → b {
    // both ends belong to the band
    ^ & >= value . band low <= value . band high
}

";

const MEAN: &str = "\
@ mean_NN [ i levels i count → i {
    : ~ i sum 0
    : ~ i hour 0
    ~ < hour count {
        : i level . levels hour
        = sum + sum ? < hour 6 16 level
        = hour + hour 1
    }
    ^ / sum count
}

";

const REPORT: &str = "\
@ report_NN s title i value → v {
    ( nurl_print `zone NN, level: ` )
    ? > value 30 { ( warn title value ) } { ( note title ) }
    ; { ( close_log title ) }
}

";

const APPLY: &str = "\
@ apply_NN *Band band [ i entries → ! i s {
    : b ready ( valve_ready NN )
    ? ! ready { ^ @ ! i s { F `not ready` } } { }
    : i level \\ ( read_level NN . band low )
    ~ entry entries { ( set_level entry level 0.5 ) }
    = . band low - level 2 // two below
    ^ @ ! i s { T level }
}

";
