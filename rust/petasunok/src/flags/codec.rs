//! Reading and writing flags, and their sizes.
use super::{StorageFlags, MINIMUM_NON_BASE_FLAGS_SIZE, SINGLE_EPOCH_FLAGS_SIZE};
use crate::lent;
use crate::{EpochMap, StorageFlagsError};

/// The most bytes of a record: two for its epoch, five for its count.
const MAXIMUM_RECORD_SIZE: usize = 7;

/// Room for as many records as an encoding can have: as many as fit in its bytes, and at most one for each epoch above the base.
fn room_for(data: &[u8]) -> usize {
    let bytes = data.len().saturating_sub(SINGLE_EPOCH_FLAGS_SIZE as usize);
    (bytes / MINIMUM_NON_BASE_FLAGS_SIZE as usize).min(u16::MAX as usize)
}

impl StorageFlags {
    /// The size of flags before they are made: 3, 32 more if owned, and for each change 2 and the size given.
    ///
    /// ```
    /// use petasunok::StorageFlags;
    ///
    /// assert_eq!(StorageFlags::approximate_size(true, Some((4, 2))), 51);
    /// assert_eq!(StorageFlags::approximate_size(false, None), 3);
    /// ```
    pub fn approximate_size(has_owner_id: bool, approximate_changes_and_bytes_count: Option<(u16, u8)>) -> u32 {
        lent::approximate_size(has_owner_id, approximate_changes_and_bytes_count)
    }

    /// Serialize storage flags. Refusal: 11, where the original's release build writes flags that it does not read.
    ///
    /// ```
    /// use petasunok::{EpochMap, StorageFlags, StorageFlagsError};
    ///
    /// let flags = StorageFlags::MultiEpoch(5, [(7, 300)].into());
    /// assert_eq!(flags.serialize()?, [1, 0, 5, 0, 7, 0xAC, 2]);
    /// assert_eq!(flags.serialized_size()?, 7);
    /// assert_eq!(StorageFlags::MultiEpoch(5, EpochMap::new()).serialize(), Err(StorageFlagsError::BadTable));
    /// # Ok::<(), StorageFlagsError>(())
    /// ```
    pub fn serialize(&self) -> Result<Vec<u8>, StorageFlagsError> {
        let owner_size = self.owner_id().map_or(0, |owner| owner.len());
        let mut bytes = vec![0; SINGLE_EPOCH_FLAGS_SIZE as usize + owner_size + self.records() * MAXIMUM_RECORD_SIZE];
        let size = lent::serialize(self.as_lent(), &mut bytes)?;
        bytes.truncate(size);
        Ok(bytes)
    }

    /// How many bytes the flags are serialized. Refusal: 11.
    pub fn serialized_size(&self) -> Result<u32, StorageFlagsError> {
        // proper flags are at most 458,780 bytes
        lent::serialized_size(self.as_lent()).map(|size| size as u32)
    }

    /// Deserialize storage flags from bytes. Empty bytes are no flags. Refusals: 1, 2, 3.
    ///
    /// ```
    /// use petasunok::{StorageFlags, StorageFlagsError};
    ///
    /// assert_eq!(StorageFlags::deserialize(&[])?, None);
    /// assert_eq!(StorageFlags::deserialize(&[0, 0, 5])?, Some(StorageFlags::SingleEpoch(5)));
    /// assert_eq!(StorageFlags::deserialize(&[0, 5]), Err(StorageFlagsError::StorageFlagsWrongSize));
    /// # Ok::<(), StorageFlagsError>(())
    /// ```
    pub fn deserialize(data: &[u8]) -> Result<Option<Self>, StorageFlagsError> {
        let mut tables = EpochMap::with_room(room_for(data));
        let (epochs, counts) = tables.lend();
        let head = lent::deserialize(data, epochs, counts)?;
        Ok(head.map(|head| Self::from_answer(head, tables)))
    }

    /// Deserialize single epoch storage flags from bytes, whatever byte 0 says. Refusal: 2.
    ///
    /// ```
    /// use petasunok::StorageFlags;
    ///
    /// assert_eq!(StorageFlags::deserialize_single_epoch(&[9, 0, 5]), Ok(StorageFlags::SingleEpoch(5)));
    /// ```
    pub fn deserialize_single_epoch(data: &[u8]) -> Result<Self, StorageFlagsError> {
        Self::filled(room_for(data), |epochs, counts| {
            lent::deserialize_single_epoch(data, epochs, counts)
        })
    }

    /// Deserialize multi epoch storage flags from bytes, whatever byte 0 says. Refusals: 2, 3.
    pub fn deserialize_multi_epoch(data: &[u8]) -> Result<Self, StorageFlagsError> {
        Self::filled(room_for(data), |epochs, counts| lent::deserialize_multi_epoch(data, epochs, counts))
    }

    /// Deserialize single epoch owned storage flags from bytes, whatever byte 0 says. Refusal: 2.
    pub fn deserialize_single_epoch_owned(data: &[u8]) -> Result<Self, StorageFlagsError> {
        Self::filled(room_for(data), |epochs, counts| {
            lent::deserialize_single_epoch_owned(data, epochs, counts)
        })
    }

    /// Deserialize multi epoch owned storage flags from bytes, whatever byte 0 says. Refusals: 2, 3.
    pub fn deserialize_multi_epoch_owned(data: &[u8]) -> Result<Self, StorageFlagsError> {
        Self::filled(room_for(data), |epochs, counts| {
            lent::deserialize_multi_epoch_owned(data, epochs, counts)
        })
    }
}
