//! Rows of an identifier, an epoch and a number.
use crate::removed::Identifier;
use crate::StorageFlagsError;
use std::collections::BTreeMap;

/// A number for each identifier and epoch that has one: the sections of a removal, or totals.
///
/// It is held as three tables of one length, which go to a call as they are. The rows of one made by [`from_tables`](Self::from_tables)
/// stand as they were given; any others rise by identifier, then epoch, and no pair stands twice.
#[derive(Clone, Debug, PartialEq, Eq)]
pub struct PerEpochByIdentifier<T> {
    pub(crate) ids: Vec<Identifier>,
    pub(crate) epochs: Vec<u16>,
    pub(crate) numbers: Vec<T>,
}

impl<T> Default for PerEpochByIdentifier<T> {
    fn default() -> Self {
        let (ids, epochs, numbers) = Default::default();
        Self { ids, epochs, numbers }
    }
}

impl<T: Copy + Default> PerEpochByIdentifier<T> {
    /// No rows.
    pub fn new() -> Self {
        Self::default()
    }

    /// The rows of three tables, in the order given. Tables of different lengths are refused with `BadTable`, as are, by every call
    /// that is given the rows, such as do not rise.
    ///
    /// ```
    /// use petasunok::{StorageFlagsError, StorageRemovalPerEpochByIdentifier, StorageRemovedBytes};
    ///
    /// let falling = StorageRemovalPerEpochByIdentifier::from_tables(vec![[0; 32]; 2], vec![9, 7], vec![2, 4]).unwrap();
    /// let removal = StorageRemovedBytes::SectionedStorageRemoval(falling);
    /// assert_eq!(removal.total_removed_bytes(), Err(StorageFlagsError::BadTable));
    /// ```
    pub fn from_tables(ids: Vec<Identifier>, epochs: Vec<u16>, numbers: Vec<T>) -> Result<Self, StorageFlagsError> {
        if ids.len() != epochs.len() || ids.len() != numbers.len() {
            return Err(StorageFlagsError::BadTable);
        }
        Ok(Self { ids, epochs, numbers })
    }

    /// The three tables: identifiers, epochs and numbers.
    pub fn into_tables(self) -> (Vec<Identifier>, Vec<u16>, Vec<T>) {
        (self.ids, self.epochs, self.numbers)
    }

    /// Tables of zeros with room for some rows.
    pub(crate) fn with_room(rows: usize) -> Self {
        let mut tables = Self::default();
        tables.resize(rows);
        tables
    }

    /// Keeps the first rows, or puts rows of zeros behind them.
    pub(crate) fn resize(&mut self, rows: usize) {
        self.ids.resize(rows, [0; 32]);
        self.epochs.resize(rows, 0);
        self.numbers.resize(rows, T::default());
    }

    /// The number of rows.
    pub fn len(&self) -> usize {
        self.ids.len()
    }

    /// Whether there is no row.
    pub fn is_empty(&self) -> bool {
        self.ids.is_empty()
    }

    /// The number of an identifier in an epoch, of rows that rise.
    pub fn get(&self, identifier: &Identifier, epoch: u16) -> Option<T> {
        let first = self.ids.partition_point(|id| id < identifier);
        let end = self.ids.partition_point(|id| id <= identifier).max(first);
        let place = self.epochs[first..end].binary_search(&epoch).ok()?;
        Some(self.numbers[first + place])
    }

    /// The rows, each an identifier, an epoch and its number.
    pub fn iter(&self) -> impl Iterator<Item = (&Identifier, u16, T)> + '_ {
        self.ids
            .iter()
            .zip(&self.epochs)
            .zip(&self.numbers)
            .map(|((id, epoch), number)| (id, *epoch, *number))
    }
}

impl<T> FromIterator<(Identifier, u16, T)> for PerEpochByIdentifier<T> {
    /// As a map is made: in the order of identifiers and epochs, and of two rows with the same pair the later stands.
    fn from_iter<I: IntoIterator<Item = (Identifier, u16, T)>>(rows: I) -> Self {
        let map: BTreeMap<_, _> = rows.into_iter().map(|(id, epoch, number)| ((id, epoch), number)).collect();
        let (pairs, numbers): (Vec<_>, _) = map.into_iter().unzip();
        let (ids, epochs) = pairs.into_iter().unzip();
        Self { ids, epochs, numbers }
    }
}

impl<T, const N: usize> From<[(Identifier, u16, T); N]> for PerEpochByIdentifier<T> {
    fn from(rows: [(Identifier, u16, T); N]) -> Self {
        rows.into_iter().collect()
    }
}
