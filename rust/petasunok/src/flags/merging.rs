//! The merges, and splitting removals.
use super::{MergingOwnersStrategy, StorageFlags};
use crate::lent::{self, Flags};
use crate::{StorageFlagsError, StorageRemovalPerEpochByIdentifier, StorageRemovedBytes};

impl StorageFlags {
    /// Combine added bytes: what came with the incoming flags is added at their base epoch. Refusals: 11, 4, 5, 6.
    ///
    /// ```
    /// use petasunok::{MergingOwnersStrategy::RaiseIssue, StorageFlags};
    ///
    /// let ours = StorageFlags::MultiEpoch(5, [(7, 300)].into());
    /// let merged = ours.combine_added_bytes(StorageFlags::SingleEpoch(7), 50, RaiseIssue)?;
    /// assert_eq!(merged, StorageFlags::MultiEpoch(5, [(7, 350)].into()));
    /// # Ok::<(), petasunok::StorageFlagsError>(())
    /// ```
    pub fn combine_added_bytes(
        self,
        rhs: Self,
        added_bytes: u32,
        merging_owners_strategy: MergingOwnersStrategy,
    ) -> Result<Self, StorageFlagsError> {
        Self::filled(1 + self.records() + rhs.records(), |epochs, counts| {
            lent::combine_added_bytes(self.as_lent(), rhs.as_lent(), added_bytes, merging_owners_strategy, epochs, counts)
        })
    }

    /// Combine removed bytes: the sections, as a split has made them, are taken from the records. Refusals: 11, 4, 5, then 7 or 6 at the
    /// first section.
    ///
    /// ```
    /// use petasunok::{MergingOwnersStrategy::RaiseIssue, StorageFlags, StorageRemovedBytes};
    ///
    /// let ours = StorageFlags::MultiEpoch(5, [(7, 10), (9, 5)].into());
    /// let removed = StorageRemovedBytes::SectionedStorageRemoval([([0; 32], 7, 4), ([0; 32], 9, 2)].into());
    /// let merged = ours.combine_removed_bytes(StorageFlags::SingleEpoch(9), &removed, RaiseIssue)?;
    /// assert_eq!(merged, StorageFlags::MultiEpoch(5, [(7, 6)].into()));
    /// # Ok::<(), petasunok::StorageFlagsError>(())
    /// ```
    pub fn combine_removed_bytes(
        self,
        rhs: Self,
        removed_bytes: &StorageRemovedBytes,
        merging_owners_strategy: MergingOwnersStrategy,
    ) -> Result<Self, StorageFlagsError> {
        let removal = removed_bytes.as_lent();
        Self::filled(1 + self.records() + rhs.records(), |epochs, counts| {
            lent::combine_removed_bytes(self.as_lent(), rhs.as_lent(), removal, merging_owners_strategy, epochs, counts)
        })
    }

    /// Optional combine added bytes: [`combine_added_bytes`](Self::combine_added_bytes), or theirs where ours is absent.
    ///
    /// ```
    /// use petasunok::{MergingOwnersStrategy::RaiseIssue, StorageFlags};
    ///
    /// let theirs = StorageFlags::SingleEpoch(7);
    /// assert_eq!(StorageFlags::optional_combine_added_bytes(None, theirs.clone(), 50, RaiseIssue), Ok(theirs));
    /// ```
    pub fn optional_combine_added_bytes(
        ours: Option<Self>,
        theirs: Self,
        added_bytes: u32,
        merging_owners_strategy: MergingOwnersStrategy,
    ) -> Result<Self, StorageFlagsError> {
        let ours = ours.as_ref().map(Self::as_lent);
        Self::filled(1 + records(ours) + theirs.records(), |epochs, counts| {
            lent::optional_combine_added_bytes(ours, theirs.as_lent(), added_bytes, merging_owners_strategy, epochs, counts)
        })
    }

    /// Optional combine removed bytes: [`combine_removed_bytes`](Self::combine_removed_bytes), or theirs where ours is absent.
    pub fn optional_combine_removed_bytes(
        ours: Option<Self>,
        theirs: Self,
        removed_bytes: &StorageRemovedBytes,
        merging_owners_strategy: MergingOwnersStrategy,
    ) -> Result<Self, StorageFlagsError> {
        let ours = ours.as_ref().map(Self::as_lent);
        let removal = removed_bytes.as_lent();
        Self::filled(1 + records(ours) + theirs.records(), |epochs, counts| {
            lent::optional_combine_removed_bytes(ours, theirs.as_lent(), removal, merging_owners_strategy, epochs, counts)
        })
    }

    /// Splits a removal of a key's bytes, as a deletion makes it: they are all taken at the base epoch, whatever their number is, and no
    /// bytes are no removal. Refusal: 11.
    ///
    /// ```
    /// use petasunok::{StorageFlags, StorageRemovedBytes::*};
    ///
    /// let flags = StorageFlags::MultiEpoch(5, [(7, 10), (9, 5)].into());
    /// assert_eq!(flags.split_key_removed_bytes(8)?, SectionedStorageRemoval([([0; 32], 5, 8)].into()));
    /// assert_eq!(flags.split_key_removed_bytes(0)?, NoStorageRemoval);
    /// # Ok::<(), petasunok::StorageFlagsError>(())
    /// ```
    pub fn split_key_removed_bytes(&self, removed_key_bytes: u32) -> Result<StorageRemovedBytes, StorageFlagsError> {
        let mut rows = StorageRemovalPerEpochByIdentifier::with_room(1);
        let removal = lent::split_key_removed_bytes(self.as_lent(), removed_key_bytes, rows.lend())?;
        Ok(StorageRemovedBytes::from_answer(removal, rows))
    }

    /// Splits a removal of a value's bytes as LIFO: from the latest record down, each of which keeps 3, or all it has where that is less,
    /// and the rest at the base epoch; no bytes are no removal. No other division is "latest first, three kept" (`docs/DIVISION.md` in the
    /// repository). Every amount is split. The answer also says how many records were visited. Refusal: 11.
    ///
    /// ```
    /// use petasunok::{StorageFlags, StorageRemovedBytes::*};
    ///
    /// let flags = StorageFlags::MultiEpoch(5, [(7, 10), (9, 5)].into());
    /// let split = flags.split_value_removed_bytes(20)?;
    /// assert_eq!(split.removal, SectionedStorageRemoval([([0; 32], 5, 11), ([0; 32], 7, 7), ([0; 32], 9, 2)].into()));
    /// assert_eq!(split.visited, 2);
    /// # Ok::<(), petasunok::StorageFlagsError>(())
    /// ```
    pub fn split_value_removed_bytes(&self, removed_value_bytes: u32) -> Result<ValueSplit, StorageFlagsError> {
        let mut rows = StorageRemovalPerEpochByIdentifier::with_room(self.records() + 1);
        let split = lent::split_value_removed_bytes(self.as_lent(), removed_value_bytes, rows.lend())?;
        Ok(ValueSplit {
            removal: StorageRemovedBytes::from_answer(split.removal, rows),
            visited: split.visited,
        })
    }
}

/// What [`StorageFlags::split_value_removed_bytes`] answers.
#[derive(Clone, Debug, PartialEq, Eq)]
pub struct ValueSplit {
    /// The removal of the value's bytes, which [`StorageFlags::combine_removed_bytes`] takes.
    pub removal: StorageRemovedBytes,
    /// How many records were visited: the number of the removal's sections that are not at the base epoch.
    pub visited: usize,
}

/// The records of flags that may be absent.
fn records(flags: Option<Flags>) -> usize {
    flags.map_or(0, |flags| flags.head.records)
}
