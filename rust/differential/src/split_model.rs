//! Splitting value bytes as document 01 says it, over whole numbers, once more and apart from the library. The original adds 3 to what is left
//! in 32 bits, so of flags with records it has no answer for the top three amounts.
use crate::model;
use crate::values::*;

/// Whether the original's sum overflows: it is first made at the latest record, of the whole amount and 3.
pub fn overflows(flags: &Flags, value: u32) -> bool {
    model::has_records(flags.head.kind) && value > u32::MAX - 3
}

/// The removal of so many value bytes of proper flags: from the latest epoch down, while bytes are left, a record gives at most what it holds
/// above 3, and the base gives the rest.
pub fn split(flags: &Flags, value: u32) -> Removal {
    let mut left = u64::from(value);
    let mut sections = Vec::new();
    for (epoch, count) in flags.records().rev() {
        if left > 0 {
            let given = left.min(u64::from(count).saturating_sub(3));
            sections.push((epoch, given));
            left -= given;
        }
    }
    if left > 0 {
        sections.push((flags.head.base, left));
    }
    if sections.is_empty() {
        return Removal::default();
    }
    let row = |(epoch, given): (u16, u64)| (flags.identifier(), epoch, given.try_into().expect("no more than was asked for"));
    Removal::sectioned(&sections.into_iter().rev().map(row).collect::<Vec<_>>())
}
