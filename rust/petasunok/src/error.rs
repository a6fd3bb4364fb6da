//! The refusals.
use std::fmt;

/// Why a call was refused. Every refusal has a number, 1 to 11 or 14; nothing that the call was lent has changed. No call gives 8 any more: its
/// variant stays for those who name it, and its number is not used again.
///
/// The original carries a text in each error; here the variant alone says what happened.
///
/// ```
/// use petasunok::{StorageFlags, StorageFlagsError};
///
/// let refused = StorageFlags::deserialize(&[4]).unwrap_err();
/// assert_eq!(refused, StorageFlagsError::DeserializeUnknownStorageFlagsType);
/// assert_eq!(refused.number(), 1);
/// ```
#[derive(Clone, Copy, Debug, PartialEq, Eq, Hash)]
pub enum StorageFlagsError {
    /// 1: the first byte of an encoding is above 3.
    DeserializeUnknownStorageFlagsType = 1,
    /// 2: an encoding has too few or too many bytes.
    StorageFlagsWrongSize = 2,
    /// 3: a count is too large or not minimal, or epochs do not rise.
    NonCanonicalStorageFlags = 3,
    /// 4: the incoming base epoch is below ours.
    MergingStorageFlagsWithDifferentBaseEpoch = 4,
    /// 5: the owners differ, or a removal is not under our owner alone.
    MergingStorageFlagsFromDifferentOwners = 5,
    /// 6: a count would pass 32 bits or a total 64, or a section takes more than its record holds.
    StorageFlagsOverflow = 6,
    /// 7: a section's epoch is not the base epoch and has no record.
    RemovingAtEpochWithNoAssociatedStorage = 7,
    /// 8: no longer given. It was, where more than 4,294,967,292 bytes were split of the value of flags that have records; now every amount is split.
    RemovalTooLarge = 8,
    /// 9: a total passes 32 bits. The original overflows there.
    TotalTooLarge = 9,
    /// 10: the answer needs more room than was lent. Only the calls of [`lent`](crate::lent) answer it.
    NoRoom = 10,
    /// 11: flags or rows are not proper: no record, epochs or rows that do not rise, an epoch that is not above the base, or a total of 0.
    BadTable = 11,
    /// 14: a total is less than what the old flags count there.
    IndexMismatch = 14,
}

use StorageFlagsError::*;

impl StorageFlagsError {
    /// All refusals, in the order of their numbers.
    pub const ALL: [Self; 12] = [
        DeserializeUnknownStorageFlagsType,
        StorageFlagsWrongSize,
        NonCanonicalStorageFlags,
        MergingStorageFlagsWithDifferentBaseEpoch,
        MergingStorageFlagsFromDifferentOwners,
        StorageFlagsOverflow,
        RemovingAtEpochWithNoAssociatedStorage,
        RemovalTooLarge,
        TotalTooLarge,
        NoRoom,
        BadTable,
        IndexMismatch,
    ];

    /// The refusal's number, 1 to 11 or 14.
    pub const fn number(self) -> u32 {
        self as u32
    }

    /// The refusal of a number, if there is one.
    ///
    /// ```
    /// use petasunok::StorageFlagsError;
    ///
    /// assert_eq!(StorageFlagsError::from_number(10), Some(StorageFlagsError::NoRoom));
    /// assert_eq!(StorageFlagsError::from_number(0), None);
    /// ```
    pub fn from_number(number: u32) -> Option<Self> {
        Self::ALL.into_iter().find(|refusal| refusal.number() == number)
    }
}

impl fmt::Display for StorageFlagsError {
    fn fmt(&self, f: &mut fmt::Formatter<'_>) -> fmt::Result {
        f.write_str(match self {
            DeserializeUnknownStorageFlagsType => "the first byte of the storage flags is above 3",
            StorageFlagsWrongSize => "the storage flags have too few or too many bytes",
            NonCanonicalStorageFlags => "a count of the storage flags is too large or not minimal, or their epochs do not rise",
            MergingStorageFlagsWithDifferentBaseEpoch => "the incoming base epoch is below ours",
            MergingStorageFlagsFromDifferentOwners => "the owners differ, or the removal is not under our owner alone",
            StorageFlagsOverflow => "a count would pass 32 bits or a total 64, or more would be removed at an epoch than was added there",
            RemovingAtEpochWithNoAssociatedStorage => "bytes would be removed at an epoch that has no record",
            RemovalTooLarge => "more than 4294967292 bytes would be removed from flags with several epochs (no longer given)",
            TotalTooLarge => "the total of the removed bytes passes 32 bits",
            NoRoom => "the answer needs more room than was lent",
            BadTable => "the given flags, removal or totals are not proper",
            IndexMismatch => "a total is less than what the old flags count there",
        })
    }
}

impl std::error::Error for StorageFlagsError {}
