//! What the measurements share.
pub mod callgrind;
pub mod program;
pub mod rounds;
