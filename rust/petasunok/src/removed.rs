//! Removals, and their sums.
use crate::lent::{self, Removal, Rows};
use crate::{StorageFlagsError, StorageRemovalPerEpochByIdentifier};

/// An identifier using 32 bytes
pub type Identifier = [u8; 32];

/// The epoch of removed bytes of which no more is known.
pub const UNKNOWN_EPOCH: u16 = u16::MAX;

/// Bytes that were removed: none, a number, or a number for each identifier and epoch.
///
/// ```
/// use petasunok::{StorageRemovedBytes, UNKNOWN_EPOCH};
/// use StorageRemovedBytes::*;
///
/// let mut removed = StorageRemovedBytes::default();
/// removed.add_assign(SectionedStorageRemoval([([0; 32], 7, 4)].into()), 1)?;
/// removed.add_assign(BasicStorageRemoval(2), 1)?;
/// assert_eq!(removed, SectionedStorageRemoval([([0; 32], 7, 4), ([0; 32], UNKNOWN_EPOCH, 2)].into()));
/// assert_eq!(removed.total_removed_bytes(), Ok(6));
/// # Ok::<(), petasunok::StorageFlagsError>(())
/// ```
#[derive(Clone, Debug, Default, PartialEq, Eq)]
pub enum StorageRemovedBytes {
    /// No storage removal
    #[default]
    NoStorageRemoval,
    /// Basic storage removal
    BasicStorageRemoval(u32),
    /// Storage removal is given as sections
    SectionedStorageRemoval(StorageRemovalPerEpochByIdentifier),
}

use StorageRemovedBytes::*;

impl StorageRemovedBytes {
    /// The removal as the calls of [`lent`](crate::lent) take it.
    pub fn as_lent(&self) -> Rows<'_> {
        match self {
            NoStorageRemoval => Rows::of(Removal::NONE),
            BasicStorageRemoval(bytes) => Rows::of(Removal::basic(*bytes)),
            SectionedStorageRemoval(sections) => sections.as_lent(),
        }
    }

    /// The removal that a call has answered, with its rows at the start of the tables.
    pub(crate) fn from_answer(removal: Removal, mut tables: StorageRemovalPerEpochByIdentifier) -> Self {
        tables.resize(removal.rows);
        match removal.kind {
            Removal::NO_REMOVAL => NoStorageRemoval,
            Removal::BASIC_REMOVAL => BasicStorageRemoval(removal.bytes),
            _ => SectionedStorageRemoval(tables),
        }
    }

    /// Adds another removal to this one. A refusal, which is 11, leaves this one as it was.
    ///
    /// The original takes the version from a thread; here it is an argument. At version 0 a basic number plus sections loses all
    /// sections of the zero identifier, and the number, if there is such a section; from version 1 on nothing is lost, and many removals
    /// can be added in any order.
    ///
    /// ```
    /// use petasunok::StorageRemovedBytes::*;
    ///
    /// let sections = SectionedStorageRemoval([([0; 32], 3, 10)].into());
    /// let mut first = BasicStorageRemoval(4);
    /// first.add_assign(sections.clone(), 0)?;
    /// assert_eq!(first, SectionedStorageRemoval([].into()));
    /// let mut fixed = BasicStorageRemoval(4);
    /// fixed.add_assign(sections, 1)?;
    /// assert_eq!(fixed, SectionedStorageRemoval([([0; 32], 3, 10), ([0; 32], 65535, 4)].into()));
    /// # Ok::<(), petasunok::StorageFlagsError>(())
    /// ```
    pub fn add_assign(&mut self, rhs: Self, version: u16) -> Result<(), StorageFlagsError> {
        let left = self.as_lent().removal;
        let right = rhs.as_lent();
        let mut tables = match self {
            SectionedStorageRemoval(sections) => std::mem::take(sections),
            _ => StorageRemovalPerEpochByIdentifier::new(),
        };
        tables.resize(left.rows + right.removal.rows + 1);
        let sum = lent::add_assign(left, tables.lend(), right, version);
        *self = Self::from_answer(sum.unwrap_or(left), tables);
        sum.map(|_| ())
    }

    /// Were any bytes removed? Refusal: 11.
    pub fn has_removal(&self) -> Result<bool, StorageFlagsError> {
        lent::has_removal(self.as_lent())
    }

    /// The total number of removed bytes. Refusals: 11; 9 where it passes 32 bits.
    ///
    /// ```
    /// use petasunok::{StorageFlagsError, StorageRemovedBytes::*};
    ///
    /// let large = SectionedStorageRemoval([([0; 32], 7, u32::MAX), ([0; 32], 9, 1)].into());
    /// assert_eq!(large.total_removed_bytes(), Err(StorageFlagsError::TotalTooLarge));
    /// assert_eq!(large.has_removal(), Ok(true));
    /// ```
    pub fn total_removed_bytes(&self) -> Result<u32, StorageFlagsError> {
        lent::total_removed_bytes(self.as_lent())
    }
}
