//! The calls on a head alone. They look at no record, and refuse only a kind that does not exist, with 11.
use super::{answered, Head};
use crate::sys::petasunok_id;
use crate::{OwnerId, StorageFlagsError};

/// The head of flags with one epoch. Never refused.
///
/// ```
/// use petasunok::lent::{self, Head};
///
/// assert_eq!(lent::new_single_epoch(5, None), Head { base: 5, ..Head::default() });
/// assert_eq!(lent::owner_id(lent::new_single_epoch(5, Some([1; 32]))), Ok(Some([1; 32])));
/// ```
pub fn new_single_epoch(epoch: u16, maybe_owner_id: Option<OwnerId>) -> Head {
    let bytes = maybe_owner_id.unwrap_or_default();
    call!(petasunok_new_single_epoch(value epoch, value u8::from(maybe_owner_id.is_some()), value petasunok_id { bytes }))
}

/// The head with another owner, where it is owned.
pub fn set_owner_id(head: Head, owner_id: OwnerId) -> Result<Head, StorageFlagsError> {
    let answer = call!(petasunok_set_owner_id(value head, value petasunok_id { bytes: owner_id }));
    answered(answer.refusal, answer.head)
}

/// The epoch of the bytes that no record counts.
pub fn base_epoch(head: Head) -> Result<u16, StorageFlagsError> {
    let answer = call!(petasunok_base_epoch(value head));
    answered(answer.refusal, answer.count as u16)
}

/// The owner or none.
pub fn owner_id(head: Head) -> Result<Option<OwnerId>, StorageFlagsError> {
    let answer = call!(petasunok_owner_id(value head));
    answered(answer.refusal, (answer.present != 0).then_some(answer.id.bytes))
}

/// Byte 0 of the flags.
pub fn type_byte(head: Head) -> Result<u8, StorageFlagsError> {
    let answer = call!(petasunok_type_byte(value head));
    answered(answer.refusal, answer.count as u8)
}
