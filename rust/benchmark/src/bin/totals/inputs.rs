//! Tables of totals, and changes of an element's flags in them.
use crate::plain::Row;
use petasunok::StorageFlags;

/// Whose the rows are: of many owners with 4 epochs each, or of few with 1,000.
#[derive(Clone, Copy)]
pub enum Owners {
    Random,
    Repeated,
}

impl Owners {
    pub const ALL: [Owners; 2] = [Owners::Random, Owners::Repeated];

    pub fn name(self) -> &'static str {
        match self {
            Owners::Random => "random",
            Owners::Repeated => "repeated",
        }
    }

    pub fn named(name: &str) -> Option<Self> {
        Self::ALL.into_iter().find(|known| known.name() == name)
    }

    /// How many epochs each has.
    fn epochs(self) -> usize {
        match self {
            Owners::Random => 4,
            Owners::Repeated => 1_000,
        }
    }
}

/// What is done to the table: nothing, so that it is only checked; four totals change; four rows are made at the front, in the middle or at
/// the end; four rows in the middle are lost.
#[derive(Clone, Copy)]
pub enum Change {
    Check,
    Update,
    Front,
    Middle,
    End,
    Lose,
}

impl Change {
    /// All, that which only checks first.
    pub const ALL: [Change; 6] = [Change::Check, Change::Update, Change::Front, Change::Middle, Change::End, Change::Lose];

    pub fn name(self) -> &'static str {
        match self {
            Change::Check => "check",
            Change::Update => "update",
            Change::Front => "front",
            Change::Middle => "middle",
            Change::End => "end",
            Change::Lose => "lose",
        }
    }

    pub fn named(name: &str) -> Option<Self> {
        Self::ALL.into_iter().find(|known| known.name() == name)
    }
}

/// A table, and the old and the new flags of an element.
pub struct Question<'a> {
    pub owners: Owners,
    pub change: Change,
    pub table: &'a [Row],
    pub old: Option<StorageFlags>,
    pub new: Option<StorageFlags>,
}

/// The records that a change makes more than there were, at most.
pub const MORE: usize = 4;

impl<'a> Question<'a> {
    pub fn new(table: &'a [Row], owners: Owners, change: Change) -> Self {
        let middle = table[table.len() / 2 / owners.epochs() * owners.epochs()].owner;
        let flags = |owner, records: [(u16, u32); MORE]| Some(StorageFlags::MultiEpochOwned(0, records.into(), owner));
        let (old, new) = match change {
            Change::Check => (None, None),
            Change::Update => (flags(middle, [2, 4, 6, 8].map(|epoch| (epoch, 5))), flags(middle, [2, 4, 6, 8].map(|epoch| (epoch, 9)))),
            Change::Front => (None, Some(StorageFlags::MultiEpoch(0, [1, 2, 3, 4].map(|epoch| (epoch, 9)).into()))),
            Change::Middle => (None, flags(middle, [1, 3, 5, 7].map(|epoch| (epoch, 9)))),
            Change::End => (None, flags([255; 32], [1, 2, 3, 4].map(|epoch| (epoch, 9)))),
            Change::Lose => (flags(middle, [2, 4, 6, 8].map(|epoch| (epoch, total(epoch) as u32))), None),
        };
        Question { owners, change, table, old, new }
    }

    pub fn rows(&self) -> usize {
        self.table.len()
    }

    /// Its rows, owners and change, as a line of the report has them.
    pub fn name(&self) -> String {
        format!("{} | {} | {}", self.rows(), self.owners.name(), self.change.name())
    }

    /// The table that is due afterwards: counts are taken and added wherever their rows stand, and all is sorted anew.
    pub fn after(&self) -> Vec<Row> {
        let mut rows = self.table.to_vec();
        for (flags, change) in [(&self.old, u64::wrapping_sub as fn(u64, u64) -> u64), (&self.new, u64::wrapping_add)] {
            let Some(flags) = flags else { continue };
            let owner = flags.owner_id().copied().unwrap_or_default();
            for (epoch, count) in flags.epoch_index_map().into_iter().flatten() {
                let place = rows.iter().position(|row| (row.epoch, row.owner) == (*epoch, owner)).unwrap_or_else(|| {
                    rows.push(Row { owner, epoch: *epoch, total: 0 });
                    rows.len() - 1
                });
                rows[place].total = change(rows[place].total, u64::from(*count));
            }
        }
        rows.retain(|row| row.total > 0);
        rows.sort_by_key(|row| (row.owner, row.epoch));
        rows
    }
}

/// The total at an epoch.
fn total(epoch: u16) -> u64 {
    u64::from(epoch) * 1_000
}

/// So many rows, the epochs of each owner even. The owners are scattered, and none has a first byte of 0 or 255.
pub fn table(rows: usize, owners: Owners) -> Vec<Row> {
    let epochs = owners.epochs();
    let mut ids: Vec<_> = (0..rows.div_ceil(epochs)).map(owner).collect();
    ids.sort_unstable();
    let row = |place: usize| {
        let epoch = (2 * (place % epochs) + 2) as u16;
        Row { owner: ids[place / epochs], epoch, total: total(epoch) }
    };
    (0..rows).map(row).collect()
}

/// One of many owners, no two alike.
fn owner(place: usize) -> [u8; 32] {
    let mut owner = [0; 32];
    for (part, bytes) in owner.chunks_mut(8).enumerate() {
        // odd factors: no two places have one number
        let mixed = ((4 * place + part + 1) as u64).wrapping_mul(0x9e37_79b9_7f4a_7c15);
        bytes.copy_from_slice(&(mixed ^ mixed >> 29).wrapping_mul(0xbf58_476d_1ce4_e5b9).to_be_bytes());
    }
    owner[0] = owner[0].clamp(1, 254);
    owner
}
