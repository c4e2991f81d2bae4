//! The class `comments`: mostly comments, with a declaration here and there.

use super::{no_names, Class};

pub const COMMENTS: Class = Class {
    name: "comments",
    head: "",
    piece,
    names: no_names,
};

fn piece(number: usize) -> String {
    let line =
        "// Corridor, north side: the probe hangs low, so the floor is set two degrees up.\n";
    format!("{}: i floor_{number} -40\n", line.repeat(3))
}
