//! Reading in two passes.
use crate::plain::fields::varint;
use crate::plain::flags::start;
use crate::plain::lean::reading::record;
use petasunok::lent::Head;
use petasunok::StorageFlagsError::{self, *};

/// Reads flags. Refusals 1, 2, 3, 10.
#[no_mangle]
#[inline(never)]
pub fn careful_read(src: &[u8], epochs: &mut [u16], counts: &mut [u32]) -> Result<Option<Head>, StorageFlagsError> {
    let Some((mut head, bytes)) = start(src)? else { return Ok(None) };
    head.records = judge(bytes, head.base)?;
    if head.records > epochs.len() || head.records > counts.len() {
        return Err(NoRoom);
    }
    fill(bytes, &mut epochs[..head.records], &mut counts[..head.records]);
    Ok(Some(head))
}

/// How many records some bytes have, if they are good. Refusals 2 and 3.
#[inline]
fn judge(bytes: &[u8], base: u16) -> Result<usize, StorageFlagsError> {
    let (mut rest, mut before, mut records) = (bytes, base, 0);
    while !rest.is_empty() {
        let (epoch, _, behind) = record(rest, before)?;
        (rest, before) = (behind, epoch);
        records += 1;
    }
    Ok(records)
}

/// Fills two tables from bytes that are good and have just so many records.
#[inline]
fn fill(bytes: &[u8], epochs: &mut [u16], counts: &mut [u32]) {
    let mut rest = bytes;
    for (epoch, count) in epochs.iter_mut().zip(counts) {
        *epoch = u16::from_be_bytes([rest[0], rest[1]]);
        let (value, used) = varint(&rest[2..]).expect("the bytes are judged");
        *count = value as u32;
        rest = &rest[2 + used..];
    }
}
