//! What is done in a row, to each member of its pool: by a program on lent tables, and by the original.
pub mod merging;
pub mod pass;
pub mod reading;
pub mod writing;

use crate::program::Program;
use crate::row::{Room, Row};
use differential::random::Random;
use differential::values::{Flags, Tables};
use petasunok::{lent, StorageFlagsError};

/// A member of a pool: something to do.
pub trait Task: Sized {
    /// What the original takes as its own, made anew for each round.
    type Operands;

    /// The member at a place of the row's pool.
    fn make(row: &Row, random: &mut Random, place: usize) -> Self;
    /// Done by a program, whose answer is left in what is lent.
    fn by_tables(&self, program: &Program, room: Room, lent: &mut Lent) -> Result<(), StorageFlagsError>;
    /// Whether what is lent holds the right answer.
    fn is_right(&self, lent: &Lent) -> bool;
    /// Copies for the original.
    fn operands(&self) -> Self::Operands;
    /// Done by the original.
    fn by_original(&self, operands: Self::Operands);
}

/// Memory that is lent to the programs, and the head or the length that they answered.
pub struct Lent {
    pub ours: Tables,
    pub theirs: Tables,
    pub merged: Tables,
    pub out: Vec<u8>,
    pub answer: lent::Head,
    pub length: usize,
}

impl Lent {
    /// Ample room for flags of so many records, and for what is made of two of them.
    pub fn new(records: usize) -> Lent {
        let most = 2 * records + 1;
        let tables = Tables { epochs: vec![0; most], counts: vec![0; most] };
        let (theirs, merged) = (tables.clone(), tables.clone());
        Lent { ours: tables, theirs, merged, out: vec![0; 35 + 7 * most], answer: lent::Head::default(), length: 0 }
    }

    /// Puts junk everywhere, so that an old answer is not taken for a new one.
    pub fn clear(&mut self) {
        for tables in [&mut self.ours, &mut self.theirs, &mut self.merged] {
            tables.epochs.fill(0xa5a5);
            tables.counts.fill(0xa5a5_a5a5);
        }
        self.out.fill(0xa5);
        (self.answer, self.length) = (lent::Head::default(), 0);
    }
}

/// How many places are lent where so many are needed and so many are ample.
fn lent_places(room: Room, needed: usize, ample: usize) -> usize {
    match room {
        Room::Exact => needed,
        Room::Ample => ample,
    }
}

/// Flags as the calls take them.
pub fn given(flags: &Flags) -> lent::Flags<'_> {
    lent::Flags { head: flags.head, epochs: &flags.tables.epochs, counts: &flags.tables.counts }
}

/// Whether a head and the start of two tables are these flags.
fn holds(head: &lent::Head, tables: &Tables, flags: &Flags) -> bool {
    *head == flags.head && tables.epochs.starts_with(&flags.tables.epochs) && tables.counts.starts_with(&flags.tables.counts)
}
