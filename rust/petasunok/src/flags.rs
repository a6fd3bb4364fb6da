//! Storage flags: what they are, and what they say.
mod codec;
mod merging;
mod wrappers;

pub use merging::ValueSplit;

use crate::lent::{Flags, Head};
use crate::{EpochMap, StorageFlagsError};
use std::fmt;

/// Optional meta-data to be stored per element
pub type ElementFlags = Vec<u8>;

/// The number of an epoch.
pub type EpochIndex = u16;

/// The epoch that an element was made in.
pub type BaseEpoch = EpochIndex;

/// How many bytes were added in an epoch.
pub type BytesAddedInEpoch = u32;

/// Who paid for an element.
pub type OwnerId = [u8; 32];

/// The size of single epoch flags
pub const SINGLE_EPOCH_FLAGS_SIZE: u32 = 3;

/// The minimum size of the non-base flags
pub const MINIMUM_NON_BASE_FLAGS_SIZE: u32 = 3;

/// Storage flags: in which epochs the bytes of an element were paid, and by whom.
///
/// The map of flags with several epochs has at least one record, and all its epochs are above the base epoch; every call refuses
/// other flags with 11.
///
/// ```
/// use petasunok::{MergingOwnersStrategy, StorageFlags};
///
/// let ours = StorageFlags::MultiEpoch(5, [(7, 10), (9, 5)].into());
/// let removed = ours.split_value_removed_bytes(6)?.removal;
/// let incoming = StorageFlags::new_single_epoch(9, None);
/// let merged = ours.combine_removed_bytes(incoming, &removed, MergingOwnersStrategy::RaiseIssue)?;
/// assert_eq!(merged, StorageFlags::MultiEpoch(5, [(7, 6)].into()));
/// assert_eq!(merged.serialize()?, [1, 0, 5, 0, 7, 6]);
/// # Ok::<(), petasunok::StorageFlagsError>(())
/// ```
#[derive(Clone, Debug, PartialEq, Eq)]
pub enum StorageFlags {
    /// Single epoch
    /// represented as byte 0
    SingleEpoch(BaseEpoch),

    /// Multi epoch
    /// represented as byte 1
    MultiEpoch(BaseEpoch, EpochMap),

    /// Single epoch owned
    /// represented as byte 2
    SingleEpochOwned(BaseEpoch, OwnerId),

    /// Multi epoch owned
    /// represented as byte 3
    MultiEpochOwned(BaseEpoch, EpochMap, OwnerId),
}

use StorageFlags::*;

/// MergingOwnersStrategy decides which owner to keep during a merge
#[derive(Clone, Copy, Debug, PartialEq, Eq, Default)]
pub enum MergingOwnersStrategy {
    /// Raise an issue that owners of nodes are different
    #[default]
    RaiseIssue = 0,
    /// Use the original owner id
    UseOurs = 1,
    /// Use the new owner id
    UseTheirs = 2,
}

impl StorageFlags {
    /// Create new single epoch storage flags
    ///
    /// ```
    /// use petasunok::StorageFlags;
    ///
    /// assert_eq!(StorageFlags::new_single_epoch(5, None), StorageFlags::SingleEpoch(5));
    /// assert_eq!(StorageFlags::new_single_epoch(5, Some([1; 32])), StorageFlags::SingleEpochOwned(5, [1; 32]));
    /// ```
    pub fn new_single_epoch(epoch: BaseEpoch, maybe_owner_id: Option<OwnerId>) -> Self {
        match maybe_owner_id {
            None => SingleEpoch(epoch),
            Some(owner_id) => SingleEpochOwned(epoch, owner_id),
        }
    }

    /// Sets the owner id if we have owned storage flags
    ///
    /// ```
    /// use petasunok::StorageFlags;
    ///
    /// let mut flags = StorageFlags::SingleEpochOwned(5, [1; 32]);
    /// flags.set_owner_id([2; 32]);
    /// assert_eq!(flags.owner_id(), Some(&[2; 32]));
    /// let mut unowned = StorageFlags::SingleEpoch(5);
    /// unowned.set_owner_id([2; 32]);
    /// assert_eq!(unowned.owner_id(), None);
    /// ```
    pub fn set_owner_id(&mut self, owner_id: OwnerId) {
        if let SingleEpochOwned(_, previous_owner_id) | MultiEpochOwned(_, _, previous_owner_id) = self {
            *previous_owner_id = owner_id;
        }
    }

    /// Returns base epoch
    pub fn base_epoch(&self) -> &BaseEpoch {
        match self {
            SingleEpoch(base_epoch) | MultiEpoch(base_epoch, _) => base_epoch,
            SingleEpochOwned(base_epoch, _) | MultiEpochOwned(base_epoch, ..) => base_epoch,
        }
    }

    /// Returns owner id
    pub fn owner_id(&self) -> Option<&OwnerId> {
        match self {
            SingleEpochOwned(_, owner_id) | MultiEpochOwned(_, _, owner_id) => Some(owner_id),
            _ => None,
        }
    }

    /// Returns epoch index map
    ///
    /// ```
    /// use petasunok::StorageFlags;
    ///
    /// let flags = StorageFlags::MultiEpochOwned(5, [(7, 300)].into(), [1; 32]);
    /// assert_eq!(flags.epoch_index_map().unwrap().get(&7), Some(&300));
    /// assert_eq!((flags.base_epoch(), flags.owner_id(), flags.type_byte()), (&5, Some(&[1; 32]), 3));
    /// ```
    pub fn epoch_index_map(&self) -> Option<&EpochMap> {
        match self {
            MultiEpoch(_, epoch_map) | MultiEpochOwned(_, epoch_map, _) => Some(epoch_map),
            _ => None,
        }
    }

    /// Returns type byte
    pub fn type_byte(&self) -> u8 {
        match self {
            SingleEpoch(_) => Head::SINGLE_EPOCH,
            MultiEpoch(..) => Head::MULTI_EPOCH,
            SingleEpochOwned(..) => Head::SINGLE_EPOCH_OWNED,
            MultiEpochOwned(..) => Head::MULTI_EPOCH_OWNED,
        }
    }

    /// The number of records: 0 for single epoch flags.
    fn records(&self) -> usize {
        self.epoch_index_map().map_or(0, EpochMap::len)
    }

    /// The flags as the calls of [`lent`](crate::lent) take them.
    ///
    /// ```
    /// use petasunok::{lent, StorageFlags};
    ///
    /// let flags = StorageFlags::MultiEpoch(5, [(7, 300)].into());
    /// assert_eq!(lent::serialized_size(flags.as_lent()), Ok(7));
    /// ```
    pub fn as_lent(&self) -> Flags<'_> {
        let owner = self.owner_id().copied().unwrap_or_default();
        let head = Head {
            kind: self.type_byte(),
            base: *self.base_epoch(),
            owner,
            records: self.records(),
        };
        match self.epoch_index_map() {
            Some(map) => Flags {
                head,
                epochs: map.epochs(),
                counts: map.counts(),
            },
            None => Flags::of(head),
        }
    }

    /// The flags of a call that writes its records into two tables, which have room for so many.
    fn filled(
        records: usize,
        call: impl FnOnce(&mut [u16], &mut [u32]) -> Result<Head, StorageFlagsError>,
    ) -> Result<Self, StorageFlagsError> {
        let mut tables = EpochMap::with_room(records);
        let (epochs, counts) = tables.lend();
        let head = call(epochs, counts)?;
        Ok(Self::from_answer(head, tables))
    }

    /// The flags that a call has answered, with their records at the start of the map's tables.
    fn from_answer(head: Head, mut tables: EpochMap) -> Self {
        tables.truncate(head.records);
        match head.kind {
            Head::SINGLE_EPOCH => SingleEpoch(head.base),
            Head::MULTI_EPOCH => MultiEpoch(head.base, tables),
            Head::SINGLE_EPOCH_OWNED => SingleEpochOwned(head.base, head.owner),
            _ => MultiEpochOwned(head.base, tables, head.owner),
        }
    }
}

impl fmt::Display for StorageFlags {
    /// The original's text.
    fn fmt(&self, f: &mut fmt::Formatter<'_>) -> fmt::Result {
        let kind = match self {
            SingleEpoch(_) => "SingleEpoch",
            MultiEpoch(..) => "MultiEpoch",
            SingleEpochOwned(..) => "SingleEpochOwned",
            MultiEpochOwned(..) => "MultiEpochOwned",
        };
        write!(f, "{kind}(BaseEpoch: {}", self.base_epoch())?;
        if let Some(epochs) = self.epoch_index_map() {
            f.write_str(", Epochs: ")?;
            for (index, bytes) in epochs {
                write!(f, "[EpochIndex: {index}, BytesAdded: {bytes}] ")?;
            }
        }
        if let Some(owner_id) = self.owner_id() {
            f.write_str(", OwnerId: ")?;
            owner_id.iter().try_for_each(|byte| write!(f, "{byte:02x}"))?;
        }
        f.write_str(")")
    }
}
