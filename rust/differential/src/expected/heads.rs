//! The calls on a head alone. The original has no head without records, so one of kind 1 or 3 is asked for with one record.
use super::Expected;
use crate::convert;
use crate::question::Reply;
use crate::values::*;
use grovedb_epoch_based_storage_flags::StorageFlags;

/// The original's flags of a head.
fn flags(head: petasunok_head) -> StorageFlags {
    let records = [(u16::MAX, 1)];
    let count = if head.kind % 2 == 1 { 1 } else { 0 };
    convert::flags(&Flags::new(head.kind, head.base, head.owner, &records[..count]))
}

/// Flags without records.
pub fn new_single_epoch(epoch: u16, owned: u8, owner: Id) -> Expected {
    let made = StorageFlags::new_single_epoch(epoch, (owned != 0).then_some(owner));
    Expected::original(Reply::Head(convert::from_flags(&made).head))
}

/// A head with another owner. An unowned one comes back as it was, with the owner bytes that are not read.
pub fn set_owner_id(head: petasunok_head, owner: Id) -> Expected {
    let mut changed = flags(head);
    changed.set_owner_id(owner);
    let owner = changed.owner_id().copied().unwrap_or(head.owner);
    Expected::original(Reply::Head(petasunok_head { owner, ..head }))
}

/// The base epoch.
pub fn base_epoch(head: petasunok_head) -> Expected {
    Expected::original(Reply::Epoch(*flags(head).base_epoch()))
}

/// The owner, zeros where there is none.
pub fn owner_id(head: petasunok_head) -> Expected {
    let flags = flags(head);
    let owner = flags.owner_id();
    Expected::original(Reply::MaybeOwner { owned: owner.is_some().into(), owner: owner.copied().unwrap_or_default() })
}

/// The kind.
pub fn type_byte(head: petasunok_head) -> Expected {
    Expected::original(Reply::Kind(flags(head).type_byte()))
}
