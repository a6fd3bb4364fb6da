//! Reading in one pass.
use crate::plain::fields::{length, varint};
use crate::plain::flags::start;
use petasunok::lent::Head;
use petasunok::StorageFlagsError::{self, *};

/// Reads flags. Refusals 1, 2, 3, and 10 where the next record has no room.
#[no_mangle]
#[inline(never)]
pub fn lean_read(src: &[u8], epochs: &mut [u16], counts: &mut [u32]) -> Result<Option<Head>, StorageFlagsError> {
    let Some((mut head, mut rest)) = start(src)? else { return Ok(None) };
    let mut before = head.base;
    while !rest.is_empty() {
        let (epoch, count, behind) = record(rest, before)?;
        if head.records >= epochs.len() || head.records >= counts.len() {
            return Err(NoRoom);
        }
        epochs[head.records] = epoch;
        counts[head.records] = count;
        head.records += 1;
        (before, rest) = (epoch, behind);
    }
    Ok(Some(head))
}

/// The record at the start of some bytes, and the bytes behind it. Refusals 2 and 3.
#[inline]
pub fn record(bytes: &[u8], before: u16) -> Result<(u16, u32, &[u8]), StorageFlagsError> {
    let (epoch, rest) = bytes.split_first_chunk().ok_or(StorageFlagsWrongSize)?;
    let epoch = u16::from_be_bytes(*epoch);
    let (count, used) = varint(rest).ok_or(StorageFlagsWrongSize)?;
    let count = u32::try_from(count).map_err(|_| NonCanonicalStorageFlags)?;
    if used != length(count) || epoch <= before {
        return Err(NonCanonicalStorageFlags);
    }
    Ok((epoch, count, &rest[used..]))
}
