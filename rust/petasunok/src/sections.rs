//! The rows of a sectioned removal.
use crate::lent::{Removal, Rows, RowsMut};
use crate::removed::Identifier;
use crate::PerEpochByIdentifier;
use std::collections::BTreeMap;

/// How many bytes were removed under each identifier in each epoch: what the original keeps in a map of identifiers to maps of epochs.
///
/// ```
/// use petasunok::StorageRemovalPerEpochByIdentifier;
///
/// let sections: StorageRemovalPerEpochByIdentifier = [([0; 32], 9, 2), ([0; 32], 7, 4)].into_iter().collect();
/// assert_eq!(sections.get(&[0; 32], 9), Some(2));
/// assert_eq!(sections.iter().collect::<Vec<_>>(), [(&[0; 32], 7, 4), (&[0; 32], 9, 2)]);
/// assert_eq!(sections.len(), 2);
/// ```
pub type StorageRemovalPerEpochByIdentifier = PerEpochByIdentifier<u32>;

impl StorageRemovalPerEpochByIdentifier {
    /// The three tables, to be written.
    pub(crate) fn lend(&mut self) -> RowsMut<'_> {
        RowsMut {
            ids: &mut self.ids,
            epochs: &mut self.epochs,
            bytes: &mut self.numbers,
        }
    }

    /// The rows as the calls of [`lent`](crate::lent) take them.
    pub fn as_lent(&self) -> Rows<'_> {
        Rows {
            removal: Removal::sectioned(self.len()),
            ids: &self.ids,
            epochs: &self.epochs,
            bytes: &self.numbers,
        }
    }
}

impl From<BTreeMap<Identifier, BTreeMap<u16, u32>>> for StorageRemovalPerEpochByIdentifier {
    /// An identifier without sections cannot be written here, and is left out.
    fn from(map: BTreeMap<Identifier, BTreeMap<u16, u32>>) -> Self {
        map.into_iter()
            .flat_map(|(id, epochs)| epochs.into_iter().map(move |(epoch, bytes)| (id, epoch, bytes)))
            .collect()
    }
}

impl From<StorageRemovalPerEpochByIdentifier> for BTreeMap<Identifier, BTreeMap<u16, u32>> {
    fn from(sections: StorageRemovalPerEpochByIdentifier) -> Self {
        let mut map = Self::new();
        for (id, epoch, bytes) in sections.iter() {
            map.entry(*id).or_default().insert(epoch, bytes);
        }
        map
    }
}
