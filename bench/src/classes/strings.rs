//! The class `strings`: mostly long strings.

use super::{no_names, Class};

pub const STRINGS: Class = Class {
    name: "strings",
    head: "",
    piece,
    names: no_names,
};

fn piece(number: usize) -> String {
    let line = "The night log, zone by zone: \\t level, floor, valve; // and no comment.\n";
    format!(": s text_{number} `{}`\n", line.repeat(4))
}
