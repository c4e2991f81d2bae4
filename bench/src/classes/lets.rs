//! The classes `lets` and `names`: lets whose leading name must be asked for in
//! the set of type names, without and with a long list of extra names.

use super::{no_names, Class};

pub const LETS: Class = Class {
    name: "lets",
    head: HEAD,
    piece,
    names: no_names,
};

pub const NAMES: Class = Class {
    name: "names",
    head: HEAD,
    piece,
    names: imported_names,
};

const HEAD: &str = "\
: Band { i low i high }
: Zone { Band band s title }
: | Season { Summer Winter }
: Pair [A C] { A first C second }
";

fn piece(number: usize) -> String {
    let lets = "
    : low_NN -40
    : high_NN + low_NN 60
    : Band band @ Band { low_NN high_NN }
    : level ( read_level NN )
    : ~ sum 0
    : inside & >= level low_NN <= level high_NN
    : title `zone NN`
";
    format!("@ zone_NN → v {{{lets}}}\n").replace("NN", &number.to_string())
}

/// 900 extra type names.
fn imported_names() -> String {
    let names: Vec<String> = (0..900).map(|n| format!("Imported{n:03}")).collect();
    names.join("\n")
}
