//! Each call twice: on owned values, and on lent memory of a given size, of which only the answer's places may change.
//!
//! The names are those of the calls. The answers of both have to be equal, unless the room is too small.
#![allow(dead_code)] // each test file uses a part of it
use petasunok::lent::{self, Head, Removal, RowsMut, Total, TotalsMut};
use petasunok::*;

pub type Answer<T> = Result<T, StorageFlagsError>;

/// Room that is enough for every example.
pub const ENOUGH: usize = 64;

/// What stands in lent memory before a call.
const MARK: u8 = 0xEE;

/// The flags with a map of some records, unowned and at base 5, as document 01 writes them.
pub fn records<const N: usize>(records: [(u16, u32); N]) -> StorageFlags {
    StorageFlags::MultiEpoch(5, records.into())
}

/// A removal with sections under no owner.
pub fn sections<const N: usize>(sections: [(u16, u32); N]) -> StorageRemovedBytes {
    StorageRemovedBytes::SectionedStorageRemoval(sections.into_iter().map(|(epoch, bytes)| ([0; 32], epoch, bytes)).collect())
}

/// Lent tables of records.
struct Records(Vec<u16>, Vec<u32>);

impl Records {
    fn marked(room: usize) -> Self {
        Records(vec![MARK.into(); room], vec![MARK.into(); room])
    }

    /// The flags of an answer, or none. All that is not theirs still has the mark.
    fn answer(mut self, answer: Answer<Option<Head>>) -> Answer<Option<StorageFlags>> {
        let used = answer.ok().flatten().map_or(0, |head| head.records);
        assert!(
            self.0.drain(used..).all(|epoch| epoch == MARK.into()),
            "an epoch behind the answer has changed"
        );
        assert!(
            self.1.drain(used..).all(|count| count == MARK.into()),
            "a count behind the answer has changed"
        );
        Ok(answer?.map(|head| {
            let map = EpochMap::from_tables(self.0, self.1).unwrap();
            match head.kind {
                Head::SINGLE_EPOCH => StorageFlags::SingleEpoch(head.base),
                Head::MULTI_EPOCH => StorageFlags::MultiEpoch(head.base, map),
                Head::SINGLE_EPOCH_OWNED => StorageFlags::SingleEpochOwned(head.base, head.owner),
                _ => StorageFlags::MultiEpochOwned(head.base, map, head.owner),
            }
        }))
    }
}

/// Lent tables of rows.
#[derive(Clone, Debug, PartialEq)]
struct Rows<T>(Vec<Identifier>, Vec<u16>, Vec<T>);

impl<T: Copy + Default + PartialEq + std::fmt::Debug + From<u8>> Rows<T> {
    /// Rows, and marked room behind them up to a size of each table.
    fn in_room(rows: PerEpochByIdentifier<T>, rooms: [usize; 3]) -> Self {
        let (mut ids, mut epochs, mut numbers) = rows.into_tables();
        ids.resize(rooms[0], [MARK; 32]);
        epochs.resize(rooms[1], MARK.into());
        numbers.resize(rooms[2], MARK.into());
        Rows(ids, epochs, numbers)
    }

    /// The first rows, as many as an answer has. From the answer's end on, all is as it was before.
    fn first(mut self, before: &Self, used: usize) -> PerEpochByIdentifier<T> {
        let behind = Rows(self.0.split_off(used), self.1.split_off(used), self.2.split_off(used));
        let kept = Rows(before.0[used..].to_vec(), before.1[used..].to_vec(), before.2[used..].to_vec());
        assert_eq!(behind, kept, "behind the answer");
        PerEpochByIdentifier::from_tables(self.0, self.1, self.2).unwrap()
    }
}

impl Rows<u32> {
    /// The rows of a removal, and marked room behind them up to a size.
    fn of(removal: &StorageRemovedBytes, room: usize) -> Self {
        let rows = match removal {
            StorageRemovedBytes::SectionedStorageRemoval(sections) => sections.clone(),
            _ => PerEpochByIdentifier::new(),
        };
        Self::in_room(rows, [room; 3])
    }

    fn marked(room: usize) -> Self {
        Self::of(&StorageRemovedBytes::NoStorageRemoval, room)
    }

    fn lend(&mut self) -> RowsMut<'_> {
        RowsMut {
            ids: &mut self.0,
            epochs: &mut self.1,
            bytes: &mut self.2,
        }
    }

    /// The removal of an answer. From the answer's end on, all is as it was before.
    fn answer(self, before: &Self, answer: Answer<Removal>) -> Answer<StorageRemovedBytes> {
        let sections = self.first(before, answer.map_or(0, |removal| removal.rows));
        let removal = answer?;
        Ok(match removal.kind {
            Removal::NO_REMOVAL => StorageRemovedBytes::NoStorageRemoval,
            Removal::BASIC_REMOVAL => StorageRemovedBytes::BasicStorageRemoval(removal.bytes),
            _ => StorageRemovedBytes::SectionedStorageRemoval(sections),
        })
    }
}

impl Rows<u64> {
    fn lend(&mut self) -> TotalsMut<'_> {
        TotalsMut {
            owners: &mut self.0,
            epochs: &mut self.1,
            totals: &mut self.2,
        }
    }
}

/// The lent answer, after it was seen that the owned one is equal, or that only the room was too small.
fn agreed<T: PartialEq + std::fmt::Debug>(owned: Answer<T>, lent: Answer<T>) -> Answer<T> {
    assert_ne!(owned, Err(StorageFlagsError::NoRoom), "an owned call has room");
    if lent != Err(StorageFlagsError::NoRoom) {
        assert_eq!(owned, lent, "owned and lent");
    }
    lent
}

pub fn deserialize(data: &[u8], room: usize) -> Answer<Option<StorageFlags>> {
    let mut tables = Records::marked(room);
    let answer = lent::deserialize(data, &mut tables.0, &mut tables.1);
    agreed(StorageFlags::deserialize(data), tables.answer(answer))
}

pub fn serialize(flags: &StorageFlags, room: usize) -> Answer<Vec<u8>> {
    let mut out = vec![MARK; room];
    let size = lent::serialize(flags.as_lent(), &mut out);
    assert!(
        out.drain(size.unwrap_or(0)..).all(|byte| byte == MARK),
        "a byte behind the answer has changed"
    );
    agreed(flags.serialize(), size.map(|_| out))
}

pub fn combine_added_bytes(
    ours: &StorageFlags,
    theirs: &StorageFlags,
    added: u32,
    strategy: MergingOwnersStrategy,
    room: usize,
) -> Answer<StorageFlags> {
    let mut tables = Records::marked(room);
    let answer = lent::combine_added_bytes(ours.as_lent(), theirs.as_lent(), added, strategy, &mut tables.0, &mut tables.1);
    let owned = ours.clone().combine_added_bytes(theirs.clone(), added, strategy);
    agreed(owned, tables.answer(answer.map(Some)).map(Option::unwrap))
}

pub fn combine_removed_bytes(
    ours: &StorageFlags,
    theirs: &StorageFlags,
    removed: &StorageRemovedBytes,
    strategy: MergingOwnersStrategy,
    room: usize,
) -> Answer<StorageFlags> {
    let mut tables = Records::marked(room);
    let rows = removed.as_lent();
    let answer = lent::combine_removed_bytes(ours.as_lent(), theirs.as_lent(), rows, strategy, &mut tables.0, &mut tables.1);
    let owned = ours.clone().combine_removed_bytes(theirs.clone(), removed, strategy);
    agreed(owned, tables.answer(answer.map(Some)).map(Option::unwrap))
}

pub fn split_key_removed_bytes(flags: &StorageFlags, key: u32, room: usize) -> Answer<StorageRemovedBytes> {
    let before = Rows::marked(room);
    let mut rows = before.clone();
    let answer = lent::split_key_removed_bytes(flags.as_lent(), key, rows.lend());
    agreed(flags.split_key_removed_bytes(key), rows.answer(&before, answer))
}

pub fn split_value_removed_bytes(flags: &StorageFlags, value: u32, room: usize) -> Answer<ValueSplit> {
    let before = Rows::marked(room);
    let mut rows = before.clone();
    let answer = lent::split_value_removed_bytes(flags.as_lent(), value, rows.lend());
    let removal = rows.answer(&before, answer.map(|split| split.removal));
    let visited = |removal| answer.map(|lent::ValueSplit { visited, .. }| ValueSplit { removal, visited });
    agreed(flags.split_value_removed_bytes(value), removal.and_then(visited))
}

pub fn add_assign(left: &StorageRemovedBytes, right: &StorageRemovedBytes, version: u16, room: usize) -> Answer<StorageRemovedBytes> {
    let before = Rows::of(left, room);
    let mut rows = before.clone();
    let answer = lent::add_assign(left.as_lent().removal, rows.lend(), right.as_lent(), version);
    let mut sum = left.clone();
    let owned = sum.add_assign(right.clone(), version);
    assert!(owned.is_ok() || sum == *left, "a refusal has changed the left removal");
    agreed(owned.map(|()| sum), rows.answer(&before, answer))
}

/// Room for the bytes, the offsets and the changes of a repair.
pub type RepairRoom = (usize, usize, usize);

pub fn repair(data: &[u8], rooms: RepairRoom) -> Answer<Repaired> {
    let (mut bytes, mut offsets, mut changes) = (vec![MARK; rooms.0], vec![MARK.into(); rooms.1], vec![MARK; rooms.2]);
    let answer = lent::repair(data, &mut bytes, &mut offsets, &mut changes);
    let (used, lines) = answer.map_or((0, 0), |sizes| (sizes.bytes, sizes.lines));
    assert!(bytes.drain(used..).all(|byte| byte == MARK), "a byte behind the answer has changed");
    assert!(
        offsets.drain(lines..).all(|offset| offset == MARK.into()),
        "an offset behind the answer has changed"
    );
    assert!(
        changes.drain(lines..).all(|change| change == MARK),
        "a change behind the answer has changed"
    );
    let line = |(offset, number)| Line {
        offset,
        change: Change::from_number(number).expect("a change"),
    };
    let lines = offsets.into_iter().zip(changes).map(line).collect();
    agreed(petasunok::repair(data), answer.map(|_| Repaired { bytes, lines }))
}

/// The totals after a change, with tables of such lengths, each at least as long as the given rows. Over structs it is the same.
pub fn totals_replace(totals: &Totals, old: Option<&StorageFlags>, new: Option<&StorageFlags>, rooms: [usize; 3]) -> Answer<Totals> {
    let before = Rows::in_room(totals.clone(), rooms);
    let mut rows = before.clone();
    let answer = lent::totals_replace(
        totals.len(),
        rows.lend(),
        old.map(StorageFlags::as_lent),
        new.map(StorageFlags::as_lent),
    );
    let after = rows.first(&before, answer.unwrap_or(0));
    let mut changed = totals.clone();
    let owned = changed.replace(old, new);
    assert!(owned.is_ok() || changed == *totals, "a refusal has changed the totals");
    let lent = agreed(owned.map(|()| changed), answer.map(|_| after));
    let structs = totals_replace_structs(totals, old, new, rooms[0].min(rooms[1]).min(rooms[2]), [ENOUGH; 3]);
    assert_eq!(structs, lent, "structs and slices");
    lent
}

/// Rows as structs, and back.
fn to_structs(totals: &Totals) -> Vec<Total> {
    let row = |(owner, epoch, total): (&Identifier, u16, u64)| Total {
        owner: *owner,
        epoch,
        total,
    };
    totals.iter().map(row).collect()
}

fn from_structs(rows: &[Total]) -> Totals {
    let (owners, epochs) = rows.iter().map(|row| (row.owner, row.epoch)).unzip();
    Totals::from_tables(owners, epochs, rows.iter().map(|row| row.total).collect()).unwrap()
}

/// The totals after a change over structs, with so much room in the table, which has at least the given rows, and in the work area. A
/// refusal changes neither; otherwise the work area has the new rows, then what is left of those before.
pub fn totals_replace_structs(
    totals: &Totals,
    old: Option<&StorageFlags>,
    new: Option<&StorageFlags>,
    room: usize,
    works: [usize; 3],
) -> Answer<Totals> {
    let (mut before, work_before) = (to_structs(totals), Rows::in_room(Totals::new(), works));
    let mark = Total {
        owner: [MARK; 32],
        epoch: MARK.into(),
        total: MARK.into(),
    };
    before.resize(room, mark);
    let (mut table, mut work) = (before.clone(), work_before.clone());
    let (old, new) = (old.map(StorageFlags::as_lent), new.map(StorageFlags::as_lent));
    let answer = lent::totals_replace_structs(totals.len(), &mut table, work.lend(), old, new);
    let rows = answer.unwrap_or(0);
    assert_eq!(table[rows..], before[rows..], "behind the answer, or after a refusal");
    let left = if answer.is_ok() { totals.len().max(rows) } else { 0 };
    let worked = [&table[..rows], &before[rows.min(left)..left]].concat();
    assert_eq!(work.first(&work_before, left), from_structs(&worked), "the work area");
    answer.map(|rows| from_structs(&table[..rows]))
}
