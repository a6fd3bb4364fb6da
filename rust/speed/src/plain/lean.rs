//! One pass, written as it comes to mind.
pub mod merging;
pub mod reading;
pub mod writing;
