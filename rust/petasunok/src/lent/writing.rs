//! Writing encodings, and their sizes.
use super::{answered, Flags};
use crate::StorageFlagsError;

/// Writes flags, and answers how many bytes they are. Refusals: 11, 10.
///
/// ```
/// use petasunok::lent::{self, Flags, Head};
///
/// let head = Head { kind: Head::MULTI_EPOCH, base: 5, records: 1, ..Head::default() };
/// let flags = Flags { head, epochs: &[7], counts: &[300] };
/// let mut out = [0; 8];
/// assert_eq!(lent::serialized_size(flags), Ok(7));
/// assert_eq!(lent::serialize(flags, &mut out), Ok(7));
/// assert_eq!(out, [1, 0, 5, 0, 7, 0xAC, 2, 0]);
/// ```
pub fn serialize(flags: Flags, out: &mut [u8]) -> Result<usize, StorageFlagsError> {
    let answer = call!(petasunok_serialize(flags flags, room out));
    answered(answer.refusal, answer.count as usize)
}

/// How many bytes flags are. Refusal: 11.
pub fn serialized_size(flags: Flags) -> Result<usize, StorageFlagsError> {
    let answer = call!(petasunok_serialized_size(flags flags));
    answered(answer.refusal, answer.count as usize)
}

/// The size of flags before they are made, with the number of changes and the size of one if these are known. Never refused.
///
/// ```
/// use petasunok::lent;
///
/// assert_eq!(lent::approximate_size(true, Some((4, 2))), 3 + 32 + 4 * (2 + 2));
/// ```
pub fn approximate_size(has_owner_id: bool, approximate_changes_and_bytes_count: Option<(u16, u8)>) -> u32 {
    let given = approximate_changes_and_bytes_count.is_some();
    let (changes, size) = approximate_changes_and_bytes_count.unwrap_or_default();
    call!(petasunok_approximate_size(value u8::from(has_owner_id), value u8::from(given), value changes, value size))
}
