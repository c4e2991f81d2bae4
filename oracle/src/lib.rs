//! An independent, slow and plain reader for NURL source (grammar 1.7), used
//! to compare another reader with. The command line is in `main.rs`.

pub mod answer;
pub mod borders;
pub mod cases;
pub mod coverage;
pub mod declarations;
pub mod desk;
pub mod documents;
pub mod expressions;
pub mod families;
pub mod generate;
pub mod kinds;
pub mod names;
pub mod parser;
pub mod points;
pub mod random;
pub mod report;
pub mod samples;
pub mod scripts;
pub mod settings;
pub mod statements;
pub mod tokens;
pub mod types;
