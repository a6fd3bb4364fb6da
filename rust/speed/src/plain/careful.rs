//! The lean program with the promise that a refusal changes nothing: a pass that judges and counts, and a pass that writes.
pub mod merging;
pub mod reading;
pub mod writing;
