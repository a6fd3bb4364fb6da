//! The adding merge in two passes.
use crate::plain::flags::{merged_head, merged_owner, proper, Records};
use crate::plain::lean::merging::{add, union};
use petasunok::lent::{Flags, Head};
use petasunok::MergingOwnersStrategy;
use petasunok::StorageFlagsError::{self, *};

/// Merges flags. Refusals 11, 4, 5, 6, 10.
#[no_mangle]
#[inline(never)]
pub fn careful_merge(
    ours: Flags,
    theirs: Flags,
    added_bytes: u32,
    strategy: MergingOwnersStrategy,
    epochs: &mut [u16],
    counts: &mut [u32],
) -> Result<Head, StorageFlagsError> {
    let (our_records, their_records) = (proper(&ours)?, proper(&theirs)?);
    let owner = merged_owner(&ours.head, &theirs.head, strategy)?;
    let higher = ours.head.base < theirs.head.base;
    let mut needed = union_length(our_records.epochs, their_records.epochs);
    if higher {
        needed += made_at(our_records, theirs.head.base, added_bytes)?;
    }
    if needed > epochs.len() || needed > counts.len() {
        return Err(NoRoom);
    }
    let mut records = union(our_records, their_records, epochs, counts)?;
    if higher {
        records = add(theirs.head.base, added_bytes, records, epochs, counts)?;
    }
    Ok(merged_head(ours.head.base, owner, records))
}

/// How many epochs two rising tables have together.
#[inline]
fn union_length(ours: &[u16], theirs: &[u16]) -> usize {
    let (mut our, mut their, mut length) = (0, 0, 0);
    while our < ours.len() && their < theirs.len() {
        let (our_epoch, their_epoch) = (ours[our], theirs[their]);
        our += usize::from(our_epoch <= their_epoch);
        their += usize::from(their_epoch <= our_epoch);
        length += 1;
    }
    length + (ours.len() - our) + (theirs.len() - their)
}

/// How many records an amount at the incoming base makes, where theirs have none: 0 where we have one that it can be added to. Refusal 6.
#[inline]
fn made_at(ours: Records, epoch: u16, amount: u32) -> Result<usize, StorageFlagsError> {
    match ours.epochs.binary_search(&epoch) {
        Ok(place) => ours.counts[place].checked_add(amount).map(|_| 0).ok_or(StorageFlagsOverflow),
        Err(_) => Ok(1),
    }
}
