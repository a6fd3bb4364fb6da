//! Writing in one pass.
use crate::plain::fields::{length, put};
use crate::plain::flags::{proper, put_start, Records};
use petasunok::lent::Flags;
use petasunok::StorageFlagsError::{self, *};

/// Writes flags. Refusals 11, and 10 where the next record has no room.
#[no_mangle]
#[inline(never)]
pub fn lean_write(flags: Flags, out: &mut [u8]) -> Result<usize, StorageFlagsError> {
    let records = proper(&flags)?;
    let at = put_start(&flags.head, out)?;
    put_records(records, out, at)
}

/// Writes records from a place on, and gives the place behind them. Refusal 10.
#[inline]
pub fn put_records(records: Records, out: &mut [u8], mut at: usize) -> Result<usize, StorageFlagsError> {
    for (epoch, count) in records.iter() {
        if out.len() - at < 2 + length(count) {
            return Err(NoRoom);
        }
        at = put_record(epoch, count, out, at);
    }
    Ok(at)
}

/// Writes a record at a place where there is room for it, and gives the place behind it.
#[inline]
pub fn put_record(epoch: u16, count: u32, out: &mut [u8], at: usize) -> usize {
    out[at..at + 2].copy_from_slice(&epoch.to_be_bytes());
    put(count, out, at + 2)
}
