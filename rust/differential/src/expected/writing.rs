//! Writing flags, and how many bytes they are.
use super::Expected;
use crate::convert;
use crate::model;
use crate::placed;
use crate::values::Flags;

/// Writes flags.
pub fn serialize(flags: &Flags, out: &[u8]) -> Expected {
    match model::flags_fault(flags) {
        Some(fault) => Expected::added(fault, placed::written(Err(11), out)),
        None => Expected::original(placed::written(Ok(convert::flags(flags).serialize()), out)),
    }
}

/// How many bytes flags are.
pub fn serialized_size(flags: &Flags) -> Expected {
    match model::flags_fault(flags) {
        Some(fault) => Expected::added(fault, placed::count(Err(11))),
        None => Expected::original(placed::count(Ok(convert::flags(flags).serialized_size().into()))),
    }
}
