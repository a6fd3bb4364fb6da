//! The nightly pass: ours and theirs are read, merged, and what comes of it is written.
use super::{Lent, Task};
use crate::inputs;
use crate::original;
use crate::program::Program;
use crate::row::{Room, Row};
use differential::convert;
use differential::random::Random;
use differential::values::Tables;
use petasunok::lent::Flags;
use petasunok::{MergingOwnersStrategy, StorageFlagsError};
use std::hint::black_box;

/// The bytes of two flags, the amount, and the bytes of what the original makes of them.
pub struct Pass {
    ours: Vec<u8>,
    theirs: Vec<u8>,
    added_bytes: u32,
    merged: Vec<u8>,
}

impl Task for Pass {
    type Operands = ();

    fn make(row: &Row, random: &mut Random, place: usize) -> Self {
        let pair = inputs::pair(random, row.counts, row.bases, row.epochs, row.records, place);
        let (ours, theirs) = (convert::flags(&pair.ours).serialize(), convert::flags(&pair.theirs).serialize());
        let merged = original::merge(original::read(&ours), original::read(&theirs), pair.added_bytes).serialize();
        Pass { ours, theirs, added_bytes: pair.added_bytes, merged }
    }

    fn by_tables(&self, program: &Program, _: Room, lent: &mut Lent) -> Result<(), StorageFlagsError> {
        let ours = read(program, black_box(&self.ours), &mut lent.ours)?;
        let theirs = read(program, black_box(&self.theirs), &mut lent.theirs)?;
        let Tables { epochs, counts } = &mut lent.merged;
        let head = (program.merge)(ours, theirs, self.added_bytes, MergingOwnersStrategy::RaiseIssue, epochs, counts)?;
        lent.length = (program.write)(Flags { head, epochs, counts }, &mut lent.out)?;
        Ok(())
    }

    fn is_right(&self, lent: &Lent) -> bool {
        lent.out[..lent.length] == self.merged
    }

    fn operands(&self) {}

    fn by_original(&self, (): ()) {
        original::original_pass(black_box(&self.ours), black_box(&self.theirs), self.added_bytes);
    }
}

/// The flags that some bytes are, in lent tables.
fn read<'a>(program: &Program, bytes: &[u8], tables: &'a mut Tables) -> Result<Flags<'a>, StorageFlagsError> {
    let head = (program.read)(bytes, &mut tables.epochs, &mut tables.counts)?.unwrap_or_default();
    Ok(Flags { head, epochs: &tables.epochs, counts: &tables.counts })
}
