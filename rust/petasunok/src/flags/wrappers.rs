//! Flags as element flags, and the other one-line forms of the original.
use super::{ElementFlags, StorageFlags};
use crate::StorageFlagsError;
use std::borrow::Cow;

impl StorageFlags {
    /// Creates storage flags from a slice.
    pub fn from_slice(data: &[u8]) -> Result<Option<Self>, StorageFlagsError> {
        Self::deserialize(data)
    }

    /// Creates storage flags from element flags.
    pub fn from_element_flags_ref(data: &ElementFlags) -> Result<Option<Self>, StorageFlagsError> {
        Self::from_slice(data.as_slice())
    }

    /// Create Storage flags from optional element flags ref
    ///
    /// ```
    /// use petasunok::StorageFlags;
    ///
    /// assert_eq!(StorageFlags::map_some_element_flags_ref(&Some(vec![0, 0, 5]))?, Some(StorageFlags::SingleEpoch(5)));
    /// assert_eq!(StorageFlags::map_some_element_flags_ref(&None)?, None);
    /// # Ok::<(), petasunok::StorageFlagsError>(())
    /// ```
    pub fn map_some_element_flags_ref(data: &Option<ElementFlags>) -> Result<Option<Self>, StorageFlagsError> {
        Self::from_slice(data.as_deref().unwrap_or_default())
    }

    /// Create Storage flags from optional element flags ref
    pub fn map_cow_some_element_flags_ref(data: &Option<ElementFlags>) -> Result<Option<Cow<'_, Self>>, StorageFlagsError> {
        Self::map_some_element_flags_ref(data).map(|option| option.map(Cow::Owned))
    }

    /// Map to owned optional element flags
    pub fn map_owned_to_element_flags(maybe_storage_flags: Option<Self>) -> Result<ElementFlags, StorageFlagsError> {
        Self::map_to_some_element_flags(maybe_storage_flags.as_ref()).map(Option::unwrap_or_default)
    }

    /// Map to optional element flags
    pub fn map_to_some_element_flags(maybe_storage_flags: Option<&Self>) -> Result<Option<ElementFlags>, StorageFlagsError> {
        maybe_storage_flags.map(Self::serialize).transpose()
    }

    /// Map to optional element flags
    pub fn map_cow_to_some_element_flags(maybe_storage_flags: Option<Cow<Self>>) -> Result<Option<ElementFlags>, StorageFlagsError> {
        Self::map_borrowed_cow_to_some_element_flags(&maybe_storage_flags)
    }

    /// Map to optional element flags
    pub fn map_borrowed_cow_to_some_element_flags(
        maybe_storage_flags: &Option<Cow<Self>>,
    ) -> Result<Option<ElementFlags>, StorageFlagsError> {
        Self::map_to_some_element_flags(maybe_storage_flags.as_deref())
    }

    /// Creates optional element flags
    pub fn to_some_element_flags(&self) -> Result<Option<ElementFlags>, StorageFlagsError> {
        self.serialize().map(Some)
    }

    /// Creates element flags.
    pub fn to_element_flags(&self) -> Result<ElementFlags, StorageFlagsError> {
        self.serialize()
    }

    /// Returns optional default storage flags
    pub fn optional_default() -> Option<Self> {
        None
    }

    /// Returns default optional storage flag as ref
    pub fn optional_default_as_ref() -> Option<&'static Self> {
        None
    }

    /// Returns default optional storage flag as ref
    pub fn optional_default_as_cow() -> Option<Cow<'static, Self>> {
        None
    }

    /// Wrap Storage Flags into optional owned cow
    pub fn into_optional_cow<'a>(self) -> Option<Cow<'a, Self>> {
        Some(Cow::Owned(self))
    }
}
