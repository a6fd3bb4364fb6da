//! Between our values and the original's.
use crate::values::*;
use grovedb_costs::storage_cost::removal::StorageRemovedBytes;
use grovedb_epoch_based_storage_flags::error::StorageFlagsError;
use grovedb_epoch_based_storage_flags::{MergingOwnersStrategy, StorageFlags};
use std::collections::BTreeMap;

/// Proper flags, as the original has them.
pub fn flags(ours: &Flags) -> StorageFlags {
    let head = &ours.head;
    let records = || ours.records().collect();
    match head.kind {
        0 => StorageFlags::SingleEpoch(head.base),
        1 => StorageFlags::MultiEpoch(head.base, records()),
        2 => StorageFlags::SingleEpochOwned(head.base, head.owner),
        _ => StorageFlags::MultiEpochOwned(head.base, records(), head.owner),
    }
}

/// The original's flags as ours, in tables that hold exactly their records.
pub fn from_flags(theirs: &StorageFlags) -> Flags {
    let records: Vec<_> = theirs.epoch_index_map().into_iter().flatten().map(|(epoch, count)| (*epoch, *count)).collect();
    let owner = theirs.owner_id().copied().unwrap_or_default();
    Flags::new(theirs.type_byte(), *theirs.base_epoch(), owner, &records)
}

/// A proper removal, as the original has it.
pub fn removal(ours: &Removal) -> StorageRemovedBytes {
    match ours.state.kind {
        0 => StorageRemovedBytes::NoStorageRemoval,
        1 => StorageRemovedBytes::BasicStorageRemoval(ours.state.bytes),
        _ => {
            let mut sections: BTreeMap<Id, intmap::IntMap<u16, u32>> = BTreeMap::new();
            for (id, epoch, bytes) in ours.rows() {
                sections.entry(id).or_default().insert(epoch, bytes);
            }
            StorageRemovedBytes::SectionedStorageRemoval(sections)
        }
    }
}

/// The original's removal as ours, in tables that hold exactly its rows.
pub fn from_removal(theirs: &StorageRemovedBytes) -> Removal {
    match theirs {
        StorageRemovedBytes::NoStorageRemoval => Removal::default(),
        StorageRemovedBytes::BasicStorageRemoval(bytes) => Removal::basic(*bytes),
        StorageRemovedBytes::SectionedStorageRemoval(sections) => {
            let mut rows = Vec::new();
            for (id, epochs) in sections {
                rows.extend(epochs.iter().map(|(epoch, bytes)| (*id, epoch, *bytes)));
            }
            rows.sort_unstable();
            Removal::sectioned(&rows)
        }
    }
}

/// A strategy byte 0 to 2.
pub fn strategy(byte: u8) -> MergingOwnersStrategy {
    match byte {
        0 => MergingOwnersStrategy::RaiseIssue,
        1 => MergingOwnersStrategy::UseOurs,
        _ => MergingOwnersStrategy::UseTheirs,
    }
}

/// Document 01's number of an error.
pub fn number(error: &StorageFlagsError) -> u32 {
    match error {
        StorageFlagsError::DeserializeUnknownStorageFlagsType(_) => 1,
        StorageFlagsError::StorageFlagsWrongSize(_) => 2,
        StorageFlagsError::NonCanonicalStorageFlags(_) => 3,
        StorageFlagsError::MergingStorageFlagsWithDifferentBaseEpoch(_) => 4,
        StorageFlagsError::MergingStorageFlagsFromDifferentOwners(_) => 5,
        StorageFlagsError::StorageFlagsOverflow(_) => 6,
        StorageFlagsError::RemovingAtEpochWithNoAssociatedStorage(_) => 7,
    }
}

/// The bytes of a count.
pub fn varint(count: u32) -> Vec<u8> {
    let mut bytes = Vec::new();
    let mut rest = count;
    while rest > 0x7f {
        bytes.push(rest as u8 | 0x80);
        rest >>= 7;
    }
    bytes.push(rest as u8);
    bytes
}

/// Makes the bytes of a count one longer than they are.
pub fn pad(varint: &mut Vec<u8>) {
    *varint.last_mut().expect("a varint has a byte") |= 0x80;
    varint.push(0);
}

/// The bytes of flags in front of their records.
pub fn start(flags: &Flags) -> Vec<u8> {
    let mut bytes = vec![flags.head.kind];
    bytes.extend(flags.owned().then_some(flags.head.owner).into_iter().flatten());
    bytes.extend(flags.head.base.to_be_bytes());
    bytes
}

/// The bytes of a record, of its epoch and the bytes of its count.
pub fn record(epoch: u16, varint: &[u8]) -> Vec<u8> {
    [&epoch.to_be_bytes(), varint].concat()
}

/// The bytes that hex digits say; blanks do not count.
pub fn bytes(hex: &str) -> Vec<u8> {
    let digits: Vec<u8> = hex.chars().filter_map(|digit| digit.to_digit(16)).map(|digit| digit as u8).collect();
    digits.chunks(2).map(|pair| pair[0] << 4 | pair[1]).collect()
}
