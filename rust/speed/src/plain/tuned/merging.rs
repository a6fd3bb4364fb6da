//! The adding merge in one pass: ours below the incoming base, the record there, then the union of the rest without branches on epochs.
use crate::plain::flags::{merged_head, merged_owner, Records};
use crate::plain::lean::merging::copy_tail;
use crate::plain::tuned::proper;
use petasunok::lent::{Flags, Head};
use petasunok::MergingOwnersStrategy;
use petasunok::StorageFlagsError::{self, *};

/// Merges flags. Refusals 11, 4, 5, then 10 where the next record has no room, or 6.
#[no_mangle]
#[inline(never)]
pub fn tuned_merge(
    ours: Flags,
    theirs: Flags,
    added_bytes: u32,
    strategy: MergingOwnersStrategy,
    epochs: &mut [u16],
    counts: &mut [u32],
) -> Result<Head, StorageFlagsError> {
    let (our_records, their_records) = (proper(&ours)?, proper(&theirs)?);
    let owner = merged_owner(&ours.head, &theirs.head, strategy)?;
    let room = epochs.len().min(counts.len());
    let (epochs, counts) = (&mut epochs[..room], &mut counts[..room]);
    let (mut our, mut made) = (0, 0);
    if ours.head.base < theirs.head.base {
        (our, made) = add(our_records, theirs.head.base, added_bytes, epochs, counts)?;
    }
    let records = join(our_records, our, their_records, made, epochs, counts)?;
    Ok(merged_head(ours.head.base, owner, records))
}

/// Copies our records below an epoch and puts the amount there; gives how many of ours are done with, and how many were made.
#[inline]
fn add(ours: Records, epoch: u16, amount: u32, epochs: &mut [u16], counts: &mut [u32]) -> Result<(usize, usize), StorageFlagsError> {
    let below = ours.epochs.partition_point(|our| *our < epoch);
    if below >= epochs.len() {
        return Err(NoRoom);
    }
    epochs[..below].copy_from_slice(&ours.epochs[..below]);
    counts[..below].copy_from_slice(&ours.counts[..below]);
    let held = ours.epochs.get(below) == Some(&epoch);
    let count = if held { ours.counts[below] } else { 0 };
    (epochs[below], counts[below]) = (epoch, count.checked_add(amount).ok_or(StorageFlagsOverflow)?);
    Ok((below + usize::from(held), below + 1))
}

/// The union of ours from a place on and theirs, behind what was made; gives how many records there are then. Where all of theirs are later
/// there is nothing to compare.
#[inline]
fn join(
    ours: Records,
    mut our: usize,
    theirs: Records,
    mut made: usize,
    epochs: &mut [u16],
    counts: &mut [u32],
) -> Result<usize, StorageFlagsError> {
    if ours.epochs[our..].last() < theirs.epochs.first() {
        let made = copy_tail(ours, our, made, epochs, counts)?;
        return copy_tail(theirs, 0, made, epochs, counts);
    }
    let mut their = 0;
    while our < ours.epochs.len() && their < theirs.epochs.len() {
        if made >= epochs.len() {
            return Err(NoRoom);
        }
        let (our_epoch, their_epoch) = (ours.epochs[our], theirs.epochs[their]);
        let (our_count, their_count) = (ours.counts[our], theirs.counts[their]);
        epochs[made] = our_epoch.min(their_epoch);
        counts[made] = if their_epoch <= our_epoch { their_count } else { our_count };
        our += usize::from(our_epoch <= their_epoch);
        their += usize::from(their_epoch <= our_epoch);
        made += 1;
    }
    let (rest, from) = if our < ours.epochs.len() { (ours, our) } else { (theirs, their) };
    copy_tail(rest, from, made, epochs, counts)
}
