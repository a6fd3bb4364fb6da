//! One pass, as fast as we could write it.
pub mod merging;
pub mod reading;
pub mod writing;

use super::flags::{held, Records};
use petasunok::lent::Flags;
use petasunok::StorageFlagsError::{self, BadTable};

/// The records of proper flags; else refusal 11. All epochs are looked at, so that several can be compared at once.
#[inline]
fn proper<'a>(flags: &Flags<'a>) -> Result<Records<'a>, StorageFlagsError> {
    let records = held(flags)?;
    let above = records.epochs.first().is_none_or(|first| *first > flags.head.base);
    let later = records.epochs.get(1..).unwrap_or_default();
    let falls = records.epochs.iter().zip(later).fold(false, |falls, (epoch, next)| falls | (next <= epoch));
    if above && !falls {
        Ok(records)
    } else {
        Err(BadTable)
    }
}
