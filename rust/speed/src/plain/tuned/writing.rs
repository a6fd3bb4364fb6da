//! Writing in one pass, with a record put down as eight bytes at once.
use super::proper;
use crate::plain::fields::length;
use crate::plain::flags::{put_start, Records};
use crate::plain::lean::writing::put_records;
use petasunok::lent::Flags;
use petasunok::StorageFlagsError;

/// Eight bytes hold any record, and up to five more, which two records behind it cover.
const WHOLE: usize = 8;
const COVER: usize = 2;

/// Writes flags. Refusals 11, and 10 where the next record has no room.
#[no_mangle]
#[inline(never)]
pub fn tuned_write(flags: Flags, out: &mut [u8]) -> Result<usize, StorageFlagsError> {
    let records = proper(&flags)?;
    let mut at = put_start(&flags.head, out)?;
    let covered = records.epochs.len().saturating_sub(COVER);
    let mut put = 0;
    while put < covered {
        let Some(room) = out.get_mut(at..at + WHOLE) else { break };
        let (word, length) = record(records.epochs[put], records.counts[put]);
        room.copy_from_slice(&word.to_le_bytes());
        at += length;
        put += 1;
    }
    put_records(Records { epochs: &records.epochs[put..], counts: &records.counts[put..] }, out, at)
}

/// A record as the first bytes of eight, and how many they are. One byte and five are told by themselves, the lengths between without a
/// branch, as in reading.
#[inline(always)]
fn record(epoch: u16, count: u32) -> (u64, usize) {
    let start = u64::from(epoch.swap_bytes());
    let count = u64::from(count);
    if count < 1 << 7 {
        return (start | count << 16, 3);
    }
    let groups = (count & 0x7f) | (count & 0x3f80) << 1 | (count & 0x1f_c000) << 2 | (count & 0xfe0_0000) << 3;
    if count >= 1 << 28 {
        return (start | (groups | (count >> 28) << 32 | 0x8080_8080) << 16, 7);
    }
    let length = length(count as u32);
    // the top bit of every byte but the last
    let tops = 0x80_8080 & ((1 << (8 * (length - 1))) - 1);
    (start | (groups | tops) << 16, 2 + length)
}
