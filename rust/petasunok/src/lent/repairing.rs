//! Repairing old encodings.
use super::{answered, RepairedSizes};
use crate::StorageFlagsError;

/// Writes the canonical bytes of old flag bytes, and lists each change: its offset in the old bytes and its number, which
/// [`Change`](crate::Change) names, line by line in two tables. It takes up to 1 MiB of the thread's stack. Refusals: 1, 2, 10.
///
/// The canonical bytes are never more than the old ones. There are at most two lines for each record, one for the tail and one for the
/// kind.
///
/// ```
/// use petasunok::{lent, Change};
///
/// // the count in epoch 9 is longer than it needs, and epoch 7 comes late
/// let old = [1, 0, 5, 0, 9, 0x81, 0, 0, 7, 10];
/// let (mut out, mut offsets, mut changes) = ([0; 10], [0; 4], [0; 4]);
/// let sizes = lent::repair(&old, &mut out, &mut offsets, &mut changes)?;
/// assert_eq!((sizes.bytes, sizes.lines), (9, 2));
/// assert_eq!(out[..9], [1, 0, 5, 0, 7, 10, 0, 9, 1]);
/// assert_eq!((offsets, changes), ([3, 7, 0, 0], [Change::ReEncoded as u8, Change::Moved as u8, 0, 0]));
/// # Ok::<(), petasunok::StorageFlagsError>(())
/// ```
pub fn repair(src: &[u8], out: &mut [u8], offsets: &mut [usize], changes: &mut [u8]) -> Result<RepairedSizes, StorageFlagsError> {
    let answer = call!(petasunok_repair(slice src, room out, room offsets, room changes));
    let (bytes, lines) = (answer.bytes, answer.lines);
    answered(answer.refusal, RepairedSizes { bytes, lines })
}
