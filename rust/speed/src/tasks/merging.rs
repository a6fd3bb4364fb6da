//! Merging two flags.
use super::{given, holds, lent_places, Lent, Task};
use crate::inputs::{self, Pair};
use crate::original;
use crate::program::Program;
use crate::row::{Room, Row};
use differential::convert;
use differential::random::Random;
use differential::values::Flags;
use grovedb_epoch_based_storage_flags::StorageFlags;
use petasunok::{MergingOwnersStrategy, StorageFlagsError};
use std::hint::black_box;

/// Two flags, as the original has them too, and what it makes of them.
pub struct Merging {
    pair: Pair,
    originals: (StorageFlags, StorageFlags),
    merged: Flags,
}

impl Task for Merging {
    type Operands = (StorageFlags, StorageFlags);

    fn make(row: &Row, random: &mut Random, place: usize) -> Self {
        let pair = inputs::pair(random, row.counts, row.bases, row.epochs, row.records, place);
        let originals = (convert::flags(&pair.ours), convert::flags(&pair.theirs));
        let (ours, theirs) = originals.clone();
        let merged = convert::from_flags(&original::merge(ours, theirs, pair.added_bytes));
        Merging { pair, originals, merged }
    }

    fn by_tables(&self, program: &Program, room: Room, lent: &mut Lent) -> Result<(), StorageFlagsError> {
        let both = self.pair.ours.head.records + self.pair.theirs.head.records;
        let places = lent_places(room, self.merged.head.records, both + 1);
        let (ours, theirs) = black_box((given(&self.pair.ours), given(&self.pair.theirs)));
        let (epochs, counts) = (&mut lent.merged.epochs[..places], &mut lent.merged.counts[..places]);
        lent.answer = (program.merge)(ours, theirs, self.pair.added_bytes, MergingOwnersStrategy::RaiseIssue, epochs, counts)?;
        Ok(())
    }

    fn is_right(&self, lent: &Lent) -> bool {
        holds(&lent.answer, &lent.merged, &self.merged)
    }

    fn operands(&self) -> Self::Operands {
        self.originals.clone()
    }

    fn by_original(&self, (ours, theirs): Self::Operands) {
        original::original_merge(ours, theirs, self.pair.added_bytes);
    }
}
