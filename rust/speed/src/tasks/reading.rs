//! Reading flags.
use super::{holds, lent_places, Lent, Task};
use crate::inputs;
use crate::original;
use crate::program::Program;
use crate::row::{Room, Row};
use differential::convert;
use differential::random::Random;
use differential::values::Flags;
use petasunok::StorageFlagsError;
use std::hint::black_box;

/// Some bytes, and what they are.
pub struct Reading {
    bytes: Vec<u8>,
    flags: Flags,
}

impl Task for Reading {
    type Operands = ();

    fn make(row: &Row, random: &mut Random, place: usize) -> Self {
        let flags = inputs::single(random, row.counts, row.records, place);
        Reading { bytes: convert::flags(&flags).serialize(), flags }
    }

    fn by_tables(&self, program: &Program, room: Room, lent: &mut Lent) -> Result<(), StorageFlagsError> {
        let places = lent_places(room, self.flags.head.records, lent.ours.room());
        let head = (program.read)(black_box(&self.bytes), &mut lent.ours.epochs[..places], &mut lent.ours.counts[..places])?;
        lent.answer = head.unwrap_or_default();
        Ok(())
    }

    fn is_right(&self, lent: &Lent) -> bool {
        holds(&lent.answer, &lent.ours, &self.flags) && convert::from_flags(&original::read(&self.bytes)) == self.flags
    }

    fn operands(&self) {}

    fn by_original(&self, (): ()) {
        original::original_read(black_box(&self.bytes));
    }
}
