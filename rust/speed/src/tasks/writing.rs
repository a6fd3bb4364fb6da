//! Writing flags.
use super::{given, lent_places, Lent, Task};
use crate::inputs;
use crate::original;
use crate::program::Program;
use crate::row::{Room, Row};
use differential::convert;
use differential::random::Random;
use differential::values::Flags;
use grovedb_epoch_based_storage_flags::StorageFlags;
use petasunok::StorageFlagsError;
use std::hint::black_box;

/// Flags, as the original has them too, and their bytes.
pub struct Writing {
    flags: Flags,
    original: StorageFlags,
    bytes: Vec<u8>,
}

impl Task for Writing {
    type Operands = ();

    fn make(row: &Row, random: &mut Random, place: usize) -> Self {
        let flags = inputs::single(random, row.counts, row.records, place);
        let original = convert::flags(&flags);
        Writing { flags, bytes: original.serialize(), original }
    }

    fn by_tables(&self, program: &Program, room: Room, lent: &mut Lent) -> Result<(), StorageFlagsError> {
        let places = lent_places(room, self.bytes.len(), 35 + 7 * self.flags.head.records);
        lent.length = (program.write)(black_box(given(&self.flags)), &mut lent.out[..places])?;
        Ok(())
    }

    fn is_right(&self, lent: &Lent) -> bool {
        lent.out[..lent.length] == self.bytes
    }

    fn operands(&self) {}

    fn by_original(&self, (): ()) {
        original::original_write(black_box(&self.original));
    }
}
