//! Measures reading, an adding merge, writing and the nightly pass on flags: the static library, the original and plain Rust programs.
pub mod arguments;
pub mod inputs;
pub mod measure;
pub mod measured;
pub mod original;
pub mod plain;
pub mod plot;
pub mod program;
pub mod report;
pub mod row;
pub mod run;
pub mod tasks;
