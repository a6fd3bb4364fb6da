//! Stands for the original's error.rs, which is not at hand: the variants that lib.rs names.

/// What went wrong.
#[derive(Clone, Debug, PartialEq, Eq)]
pub enum StorageFlagsError {
    /// A kind byte above 3.
    DeserializeUnknownStorageFlagsType(String),
    /// Bytes are missing, or there are too many.
    StorageFlagsWrongSize(String),
    /// A count that is too large or not minimal, or epochs that do not rise.
    NonCanonicalStorageFlags(String),
    /// The incoming base is below ours.
    MergingStorageFlagsWithDifferentBaseEpoch(String),
    /// The owners differ, or a removal is not under our owner.
    MergingStorageFlagsFromDifferentOwners(String),
    /// A count would pass 32 bits, or a section takes more than its record holds.
    StorageFlagsOverflow(String),
    /// A section's epoch is not the base and has no record.
    RemovingAtEpochWithNoAssociatedStorage(String),
}
