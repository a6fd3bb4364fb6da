//! Inputs: numbers at their boundaries, flags, removals, encodings, totals, and what is lent.
pub mod encodings;
pub mod flags;
pub mod lent;
pub mod numbers;
pub mod old;
pub mod removals;
pub mod totals;
