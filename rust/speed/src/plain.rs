//! Plain Rust programs, to compare with. They have no unsafe code. What each refuses and promises:
//!
#![doc = include_str!("contestants.md")]
pub mod careful;
pub mod fields;
pub mod flags;
pub mod lean;
pub mod tuned;
