//! Totals per owner and epoch.
use crate::lent::{self, TotalsMut};
use crate::{PerEpochByIdentifier, StorageFlags, StorageFlagsError};

/// How many bytes all elements together count for each owner in each epoch, unowned ones under 32 zero bytes: a row exactly where that is
/// above 0. Kept beside the elements, it need not be recounted: each change of an element's flags is told to [`replace`](Self::replace).
///
/// ```
/// use petasunok::{StorageFlags, Totals};
///
/// let first = StorageFlags::MultiEpochOwned(5, [(7, 10), (9, 5)].into(), [1; 32]);
/// let second = StorageFlags::MultiEpoch(5, [(7, 4)].into());
/// let mut totals = Totals::new();
/// for flags in [&first, &second] {
///     totals.replace(None, Some(flags))?;
/// }
/// assert_eq!(totals, [([0; 32], 7, 4), ([1; 32], 7, 10), ([1; 32], 9, 5)].into());
///
/// // the first element changes, and the second one is deleted
/// let shorter = StorageFlags::MultiEpochOwned(5, [(7, 6)].into(), [1; 32]);
/// totals.replace(Some(&first), Some(&shorter))?;
/// totals.replace(Some(&second), None)?;
/// assert_eq!(totals, [([1; 32], 7, 6)].into());
/// assert_eq!(totals.get(&[1; 32], 7), Some(6));
/// # Ok::<(), petasunok::StorageFlagsError>(())
/// ```
pub type Totals = PerEpochByIdentifier<u64>;

impl Totals {
    /// Replaces an element's old flags by new ones; an element that comes has no old flags, and one that goes no new ones. The old
    /// flags' counts are taken from the totals at their owner and epochs, the new ones' are added, and all other rows stay.
    ///
    /// Refusals, which leave the totals as they were: 11, also where the totals do not rise or one is 0; 14 where a total is less than the
    /// old flags' count; 6 where one would pass 64 bits.
    ///
    /// ```
    /// use petasunok::{StorageFlags, StorageFlagsError, Totals};
    ///
    /// let flags = StorageFlags::MultiEpoch(5, [(7, 4)].into());
    /// let mut totals = Totals::from([([0; 32], 7, 3)]);
    /// assert_eq!(totals.replace(Some(&flags), None), Err(StorageFlagsError::IndexMismatch));
    /// assert_eq!(totals, [([0; 32], 7, 3)].into());
    /// ```
    pub fn replace(&mut self, old: Option<&StorageFlags>, new: Option<&StorageFlags>) -> Result<(), StorageFlagsError> {
        let (rows, new) = (self.len(), new.map(StorageFlags::as_lent));
        self.resize(rows + new.map_or(0, |flags| flags.head.records));
        let table = TotalsMut {
            owners: &mut self.ids,
            epochs: &mut self.epochs,
            totals: &mut self.numbers,
        };
        let answer = lent::totals_replace(rows, table, old.map(StorageFlags::as_lent), new);
        self.resize(answer.unwrap_or(rows));
        answer.map(|_| ())
    }
}
