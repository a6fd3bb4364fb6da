//! Reading in one pass, with a record taken out of eight bytes at once.
use crate::plain::flags::start;
use crate::plain::lean::reading::record;
use petasunok::lent::Head;
use petasunok::StorageFlagsError::{self, *};

/// The top bits of four bytes.
const TOPS: u64 = 0x8080_8080;

/// Reads flags. Refusals 1, 2, 3, and 10 where the next record has no room.
#[no_mangle]
#[inline(never)]
pub fn tuned_read(src: &[u8], epochs: &mut [u16], counts: &mut [u32]) -> Result<Option<Head>, StorageFlagsError> {
    let Some((mut head, mut rest)) = start(src)? else { return Ok(None) };
    let room = epochs.len().min(counts.len());
    let (epochs, counts) = (&mut epochs[..room], &mut counts[..room]);
    let mut before = head.base;
    let mut records = 0;
    while !rest.is_empty() {
        let (epoch, count, used) = match whole(rest, before) {
            Some(record) => record,
            None => {
                let (epoch, count, behind) = record(rest, before)?;
                (epoch, count, rest.len() - behind.len())
            }
        };
        if records >= room {
            return Err(NoRoom);
        }
        (epochs[records], counts[records]) = (epoch, count);
        records += 1;
        (before, rest) = (epoch, &rest[used..]);
    }
    head.records = records;
    Ok(Some(head))
}

/// The good record at the start of eight bytes or more, and how many bytes it has. One byte and five are told by themselves, the lengths
/// between without a branch; that is what random counts would have a processor guess wrong.
#[inline(always)]
fn whole(bytes: &[u8], before: u16) -> Option<(u16, u32, usize)> {
    let word = u64::from_le_bytes(*bytes.first_chunk()?);
    let epoch = (word as u16).swap_bytes();
    let groups = word >> 16;
    if groups & 0x80 == 0 {
        return (epoch > before).then_some((epoch, groups as u32 & 0x7f, 3));
    }
    if groups & TOPS == TOPS {
        let last = (groups >> 32) as u8;
        let good = (last.wrapping_sub(1) < 15) & (epoch > before);
        return good.then_some((epoch, joined(groups) | u32::from(last) << 28, 7));
    }
    // the first top bit that is not set stands on the last byte, whose other seven bits are below it
    let ends = !groups & TOPS;
    let last = ends & ends.wrapping_neg();
    let groups = groups & (last - 1);
    let minimal = groups & (last - (last >> 7)) != 0;
    let used = 3 + (last.trailing_zeros() / 8) as usize;
    (minimal & (epoch > before)).then_some((epoch, joined(groups), used))
}

/// The four lowest groups of seven bits, each in its byte, side by side.
#[inline(always)]
fn joined(groups: u64) -> u32 {
    let groups = groups as u32;
    (groups & 0x7f) | (groups >> 1 & 0x3f80) | (groups >> 2 & 0x1f_c000) | (groups >> 3 & 0xfe0_0000)
}
