//! The five readers.
use super::{flags, Expected};
use crate::placed;
use crate::question::Reader;
use crate::values::Tables;
use grovedb_epoch_based_storage_flags::error::StorageFlagsError;
use grovedb_epoch_based_storage_flags::StorageFlags;

/// What the original reads by one of them.
pub fn original(reader: Reader, src: &[u8]) -> Result<Option<StorageFlags>, StorageFlagsError> {
    crate::read_by!(StorageFlags, reader, src)
}

/// Reads by one of them.
pub fn read(reader: Reader, src: &[u8], lent: &Tables) -> Expected {
    Expected::original(placed::flags(flags(original(reader, src)), lent))
}
