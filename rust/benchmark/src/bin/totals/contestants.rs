//! The three programs that are measured, each on copies of a table that are made anew before every round.
use crate::inputs::{Question, MORE};
use crate::plain::{plain_totals_replace, Row};
use benchmark::rounds::Contestant;
use petasunok::lent::{self, Flags, TotalsMut};
use petasunok::StorageFlags;
use std::hint::black_box;

/// A table in three slices, with room behind its rows.
pub struct Slices {
    owners: Vec<[u8; 32]>,
    epochs: Vec<u16>,
    totals: Vec<u64>,
}

impl Slices {
    fn new(rows: &[Row], more: usize) -> Self {
        let rows = || rows.iter().copied().chain(std::iter::repeat_n(Row::default(), more));
        let (owners, epochs) = rows().map(|row| (row.owner, row.epoch)).unzip();
        Slices { owners, epochs, totals: rows().map(|row| row.total).collect() }
    }

    fn lend(&mut self) -> TotalsMut<'_> {
        TotalsMut { owners: &mut self.owners, epochs: &mut self.epochs, totals: &mut self.totals }
    }
}

/// Something that can be made what another is, in its own memory.
pub trait Restored: Sized {
    fn restore(&mut self, from: &Self);
    fn rows(&self, many: usize) -> Vec<Row>;
}

impl Restored for Slices {
    fn restore(&mut self, from: &Self) {
        self.owners.clone_from(&from.owners);
        self.epochs.clone_from(&from.epochs);
        self.totals.clone_from(&from.totals);
    }

    fn rows(&self, many: usize) -> Vec<Row> {
        (0..many).map(|place| Row { owner: self.owners[place], epoch: self.epochs[place], total: self.totals[place] }).collect()
    }
}

impl Restored for Vec<Row> {
    fn restore(&mut self, from: &Self) {
        self.clone_from(from);
    }

    fn rows(&self, many: usize) -> Vec<Row> {
        self[..many].to_vec()
    }
}

/// A program with the table as it is before, and the copies that it changes.
pub struct Program<T, F> {
    before: T,
    copies: Vec<T>,
    change: F,
}

/// What is asked of a program that is measured.
pub trait Contest: Contestant {
    /// The rows that one change leaves.
    fn answer(&mut self) -> Vec<Row>;
}

impl<T: Restored, F: FnMut(&mut T) -> usize> Program<T, F> {
    fn new(copies: usize, make: impl Fn() -> T, change: F) -> Self {
        Program { before: make(), copies: (0..copies).map(|_| make()).collect(), change }
    }
}

impl<T: Restored, F: FnMut(&mut T) -> usize> Contestant for Program<T, F> {
    fn prepare(&mut self) {
        for copy in &mut self.copies {
            copy.restore(&self.before);
        }
    }

    fn work(&mut self) {
        for copy in &mut self.copies {
            black_box((self.change)(copy));
        }
    }
}

impl<T: Restored, F: FnMut(&mut T) -> usize> Contest for Program<T, F> {
    fn answer(&mut self) -> Vec<Row> {
        let rows = (self.change)(&mut self.copies[0]);
        self.copies[0].rows(rows)
    }
}

/// The flags of a question, as the calls take them.
fn flags(given: &Option<StorageFlags>) -> Option<Flags<'_>> {
    black_box(given.as_ref()).map(StorageFlags::as_lent)
}

/// The call on three slices.
pub fn core_in<'a>(question: &'a Question, copies: usize) -> impl Contest + 'a {
    let rows = question.rows();
    Program::new(
        copies,
        || Slices::new(question.table, MORE),
        move |table: &mut Slices| {
            lent::totals_replace(rows, table.lend(), flags(&question.old), flags(&question.new)).expect("the change is accepted")
        },
    )
}

/// The call on a slice of structs, with three slices to work in.
pub fn structs_in<'a>(question: &'a Question, copies: usize) -> impl Contest + 'a {
    let rows = question.rows();
    let mut work = Slices::new(&[], rows + MORE);
    Program::new(
        copies,
        || [question.table, &[Row::default(); MORE]].concat(),
        move |table: &mut Vec<Row>| {
            lent::totals_replace_structs(rows, table, work.lend(), flags(&question.old), flags(&question.new))
                .expect("the change is accepted")
        },
    )
}

/// The plain program.
pub fn plain_in<'a>(question: &'a Question, copies: usize) -> impl Contest + 'a {
    let room = question.rows() + MORE;
    Program::new(
        copies,
        || question.table.to_vec(),
        move |table: &mut Vec<Row>| {
            plain_totals_replace(table, room, flags(&question.old), flags(&question.new)).expect("the change is accepted")
        },
    )
}
