//! What the calls are given and lent: heads with their tables, at the C boundary's types.
pub use petasunok::sys::{
    petasunok_count, petasunok_flags, petasunok_head, petasunok_id, petasunok_owner, petasunok_removal, petasunok_repaired, petasunok_sum,
    petasunok_total, petasunok_value_split,
};

/// An owner or identifier.
pub type Id = [u8; 32];

/// The identifier of what has no owner.
pub const ZEROS: Id = [0; 32];

/// The two tables that hold records.
#[derive(Clone, Debug, Default, PartialEq, Eq)]
pub struct Tables {
    pub epochs: Vec<u16>,
    pub counts: Vec<u32>,
}

/// The three tables that hold rows: of a removal, or, with numbers of 64 bits, of totals.
#[derive(Clone, Debug, Default, PartialEq, Eq)]
pub struct Rows<T = u32> {
    pub ids: Vec<Id>,
    pub epochs: Vec<u16>,
    pub bytes: Vec<T>,
}

/// Flags: a head, and the tables in whose first places its records stand.
#[derive(Clone, Debug, Default, PartialEq, Eq)]
pub struct Flags {
    pub head: petasunok_head,
    pub tables: Tables,
}

/// A removal: its state, and the tables in whose first places its rows stand.
#[derive(Clone, Debug, Default, PartialEq, Eq)]
pub struct Removal {
    pub state: petasunok_removal,
    pub rows: Rows,
}

/// What a repair writes: the canonical bytes, and a line for each change in two tables.
#[derive(Clone, Debug, Default, PartialEq, Eq)]
pub struct Repaired {
    pub out: Vec<u8>,
    pub offsets: Vec<usize>,
    pub changes: Vec<u8>,
}

/// A table with the places of a shorter one over its first places.
fn over<T: Copy>(table: &[T], first: &[T]) -> Vec<T> {
    [first, &table[first.len()..]].concat()
}

impl Tables {
    /// How many records have room.
    pub fn room(&self) -> usize {
        self.epochs.len().min(self.counts.len())
    }

    /// These tables with the places of other ones over their first places.
    pub fn with(&self, first: &Tables) -> Tables {
        Tables { epochs: over(&self.epochs, &first.epochs), counts: over(&self.counts, &first.counts) }
    }
}

impl<T: Copy> Rows<T> {
    /// Tables that hold exactly these rows.
    pub fn of(rows: &[(Id, u16, T)]) -> Self {
        Rows {
            ids: rows.iter().map(|row| row.0).collect(),
            epochs: rows.iter().map(|row| row.1).collect(),
            bytes: rows.iter().map(|row| row.2).collect(),
        }
    }

    /// How many rows have room.
    pub fn room(&self) -> usize {
        self.ids.len().min(self.epochs.len()).min(self.bytes.len())
    }

    /// The first rows, of tables that hold them.
    pub fn first(&self, rows: usize) -> impl Iterator<Item = (Id, u16, T)> + '_ {
        (0..rows).map(|place| (self.ids[place], self.epochs[place], self.bytes[place]))
    }

    /// These tables with the places of other ones over their first places.
    pub fn with(&self, first: &Self) -> Self {
        let (ids, epochs, bytes) = (over(&self.ids, &first.ids), over(&self.epochs, &first.epochs), over(&self.bytes, &first.bytes));
        Rows { ids, epochs, bytes }
    }
}

impl Repaired {
    /// How many lines have room.
    pub fn room(&self) -> usize {
        self.offsets.len().min(self.changes.len())
    }

    /// These tables with the places of other ones over their first places.
    pub fn with(&self, first: &Repaired) -> Repaired {
        let (offsets, changes) = (over(&self.offsets, &first.offsets), over(&self.changes, &first.changes));
        Repaired { out: over(&self.out, &first.out), offsets, changes }
    }
}

impl Flags {
    /// Flags whose tables hold exactly these records.
    pub fn new(kind: u8, base: u16, owner: Id, records: &[(u16, u32)]) -> Flags {
        let head = petasunok_head { kind, base, owner, records: records.len() };
        let (epochs, counts) = records.iter().copied().unzip();
        Flags { head, tables: Tables { epochs, counts } }
    }

    /// The records, of tables that hold them.
    pub fn records(&self) -> impl DoubleEndedIterator<Item = (u16, u32)> + '_ {
        self.tables.epochs.iter().copied().zip(self.tables.counts.iter().copied()).take(self.head.records)
    }

    /// Whether the kind is an owned one.
    pub fn owned(&self) -> bool {
        self.head.kind >= 2
    }

    /// The owner of owned flags, zeros of others.
    pub fn identifier(&self) -> Id {
        if self.owned() {
            self.head.owner
        } else {
            ZEROS
        }
    }
}

impl Removal {
    /// One number.
    pub fn basic(bytes: u32) -> Removal {
        Removal { state: petasunok_removal { kind: 1, bytes, rows: 0 }, rows: Rows::default() }
    }

    /// A sectioned removal whose tables hold exactly these rows.
    pub fn sectioned(rows: &[(Id, u16, u32)]) -> Removal {
        Removal { state: petasunok_removal { kind: 2, bytes: 0, rows: rows.len() }, rows: Rows::of(rows) }
    }

    /// The rows, of tables that hold them.
    pub fn rows(&self) -> impl Iterator<Item = (Id, u16, u32)> + '_ {
        self.rows.first(if self.state.kind == 2 { self.state.rows } else { 0 })
    }
}
