//! Writing in two passes.
use crate::plain::fields::length;
use crate::plain::flags::{proper, put_start, start_length};
use crate::plain::lean::writing::put_record;
use petasunok::lent::Flags;
use petasunok::StorageFlagsError::{self, *};

/// Writes flags. Refusals 11, 10.
#[no_mangle]
#[inline(never)]
pub fn careful_write(flags: Flags, out: &mut [u8]) -> Result<usize, StorageFlagsError> {
    let records = proper(&flags)?;
    let size = start_length(&flags.head) + records.counts.iter().map(|count| 2 + length(*count)).sum::<usize>();
    let Some(out) = out.get_mut(..size) else { return Err(NoRoom) };
    let mut at = put_start(&flags.head, out)?;
    for (epoch, count) in records.iter() {
        at = put_record(epoch, count, out, at);
    }
    Ok(at)
}
