//! The adding merge in one pass: the union by two pointers, then the amount at the incoming base.
use crate::plain::flags::{merged_head, merged_owner, proper, Records};
use petasunok::lent::{Flags, Head};
use petasunok::MergingOwnersStrategy;
use petasunok::StorageFlagsError::{self, *};
use std::cmp::Ordering;

/// Merges flags. Refusals 11, 4, 5, then 10 where the union has no room, 6, and 10 where the amount has none.
#[no_mangle]
#[inline(never)]
pub fn lean_merge(
    ours: Flags,
    theirs: Flags,
    added_bytes: u32,
    strategy: MergingOwnersStrategy,
    epochs: &mut [u16],
    counts: &mut [u32],
) -> Result<Head, StorageFlagsError> {
    let (our_records, their_records) = (proper(&ours)?, proper(&theirs)?);
    let owner = merged_owner(&ours.head, &theirs.head, strategy)?;
    let mut records = union(our_records, their_records, epochs, counts)?;
    if ours.head.base < theirs.head.base {
        records = add(theirs.head.base, added_bytes, records, epochs, counts)?;
    }
    Ok(merged_head(ours.head.base, owner, records))
}

/// All records of both, theirs where both have an epoch; gives how many they are.
#[inline]
pub fn union(ours: Records, theirs: Records, epochs: &mut [u16], counts: &mut [u32]) -> Result<usize, StorageFlagsError> {
    let room = epochs.len().min(counts.len());
    let (epochs, counts) = (&mut epochs[..room], &mut counts[..room]);
    let (mut our, mut their, mut made) = (0, 0, 0);
    while our < ours.epochs.len() && their < theirs.epochs.len() {
        if made == room {
            return Err(NoRoom);
        }
        match ours.epochs[our].cmp(&theirs.epochs[their]) {
            Ordering::Less => {
                (epochs[made], counts[made]) = (ours.epochs[our], ours.counts[our]);
                our += 1;
            }
            Ordering::Equal => {
                (epochs[made], counts[made]) = (theirs.epochs[their], theirs.counts[their]);
                our += 1;
                their += 1;
            }
            Ordering::Greater => {
                (epochs[made], counts[made]) = (theirs.epochs[their], theirs.counts[their]);
                their += 1;
            }
        }
        made += 1;
    }
    let (rest, from) = if our < ours.epochs.len() { (ours, our) } else { (theirs, their) };
    copy_tail(rest, from, made, epochs, counts)
}

/// Copies the records from a place on behind those that were made; gives how many they are then.
#[inline]
pub fn copy_tail(from: Records, place: usize, made: usize, epochs: &mut [u16], counts: &mut [u32]) -> Result<usize, StorageFlagsError> {
    let end = made + from.epochs.len() - place;
    let (Some(epochs), Some(counts)) = (epochs.get_mut(made..end), counts.get_mut(made..end)) else { return Err(NoRoom) };
    epochs.copy_from_slice(&from.epochs[place..]);
    counts.copy_from_slice(&from.counts[place..]);
    Ok(end)
}

/// Adds an amount to the record at an epoch, or makes one there; gives how many records there are then.
#[inline]
pub fn add(epoch: u16, amount: u32, records: usize, epochs: &mut [u16], counts: &mut [u32]) -> Result<usize, StorageFlagsError> {
    match epochs[..records].binary_search(&epoch) {
        Ok(place) => {
            counts[place] = counts[place].checked_add(amount).ok_or(StorageFlagsOverflow)?;
            Ok(records)
        }
        Err(_) if records >= epochs.len() || records >= counts.len() => Err(NoRoom),
        Err(place) => {
            epochs.copy_within(place..records, place + 1);
            counts.copy_within(place..records, place + 1);
            (epochs[place], counts[place]) = (epoch, amount);
            Ok(records + 1)
        }
    }
}
