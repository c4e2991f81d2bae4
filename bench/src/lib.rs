//! Holds the reader in libnurl.a against the independent reader of `oracle`:
//! the binary `differential` compares answers and tables, `bench` compares
//! speed. Both readers get the same source, names and lent tables.

pub mod cases;
pub mod classes;
pub mod compare;
pub mod large;
pub mod measure;
pub mod prepared;
pub mod report;
pub mod subjects;
pub mod tally;
