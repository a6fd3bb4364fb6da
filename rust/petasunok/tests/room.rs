//! Lent room: what is exactly enough is enough, one place less is refused with 10 and changes nothing, and so does no room at all.
mod both;
use both::{records, sections, Answer, ENOUGH};
use petasunok::lent::{self, Flags, Head};
use petasunok::MergingOwnersStrategy::RaiseIssue;
use petasunok::StorageFlags::{self, SingleEpoch};
use petasunok::StorageFlagsError::NoRoom;
use petasunok::StorageRemovedBytes::*;
use petasunok::Totals;
use std::fmt::Debug;

/// A call that needs some room: the answer is the same with more, and refused with less. `both` looks at what was lent.
fn needs<T: PartialEq + Debug>(room: usize, call: impl Fn(usize) -> Answer<T>) {
    let answer = call(ENOUGH);
    assert!(answer.is_ok(), "{answer:?}");
    assert_eq!(call(room), answer, "exact room");
    for short in 0..room {
        assert_eq!(call(short), Err(NoRoom), "room {short} of {room}");
    }
}

#[test]
fn reading() {
    needs(0, |room| both::deserialize(&[0, 0, 5], room));
    needs(1, |room| both::deserialize(&[1, 0, 5, 0, 7, 0xAC, 2], room));
    needs(2, |room| both::deserialize(&[1, 0, 5, 0, 7, 10, 0, 9, 5], room));
}

#[test]
fn writing() {
    needs(3, |room| both::serialize(&SingleEpoch(5), room));
    needs(7, |room| both::serialize(&records([(7, 300)]), room));
}

#[test]
fn merging() {
    let ours = records([(7, 10), (9, 5)]);
    needs(3, |room| both::combine_added_bytes(&ours, &SingleEpoch(8), 1, RaiseIssue, room));
    needs(2, |room| both::combine_added_bytes(&ours, &SingleEpoch(9), 1, RaiseIssue, room));
    // the record at 9 is dropped, so one place is enough
    let removed = sections([(7, 4), (9, 2)]);
    needs(1, |room| {
        both::combine_removed_bytes(&ours, &SingleEpoch(9), &removed, RaiseIssue, room)
    });
}

#[test]
fn splitting() {
    let flags = records([(7, 10), (9, 5)]);
    needs(1, |room| both::split_key_removed_bytes(&flags, 1, room));
    needs(0, |room| both::split_key_removed_bytes(&flags, 0, room));
    needs(3, |room| both::split_value_removed_bytes(&flags, 20, room));
    needs(0, |room| both::split_value_removed_bytes(&flags, 0, room));
}

#[test]
fn sums() {
    let (left, right) = (sections([(7, 4), (9, 2)]), sections([(7, 1), (8, 1)]));
    assert_eq!(both::add_assign(&left, &right, 1, 2), Err(NoRoom));
    assert_eq!(both::add_assign(&left, &right, 1, 3), both::add_assign(&left, &right, 1, ENOUGH));
    needs(3, |room| both::add_assign(&BasicStorageRemoval(4), &right, 1, room));
    needs(2, |room| both::add_assign(&NoStorageRemoval, &right, 0, room));
}

#[test]
fn repairing() {
    let needs_each = |rooms: both::RepairRoom, data: &[u8]| {
        needs(rooms.0, |room| both::repair(data, (room, rooms.1, rooms.2)));
        needs(rooms.1, |room| both::repair(data, (rooms.0, room, rooms.2)));
        needs(rooms.2, |room| both::repair(data, (rooms.0, rooms.1, room)));
    };
    needs_each((0, 0, 0), &[]);
    needs_each((3, 0, 0), &[0, 0, 5]);
    needs_each((3, 1, 1), &[0, 0, 5, 0]);
    needs_each((3, 3, 3), &[1, 0, 5, 0, 5, 1, 0]);
    // 9 is replaced, 7 is written shorter and moved
    needs_each((9, 3, 3), &[1, 0, 5, 0, 9, 1, 0, 9, 2, 0, 7, 0x83, 0]);
}

#[test]
fn totals() {
    let totals = Totals::from([([1; 32], 7, 10), ([1; 32], 9, 5)]);
    let (old, new) = (records([(7, 3), (9, 5)]), records([(6, 1), (7, 3), (8, 0)]));
    let owned = |flags: &StorageFlags| StorageFlags::MultiEpochOwned(5, flags.epoch_index_map().unwrap().clone(), [1; 32]);
    // the first rooms are what the given rows need
    let needs_each = |least: usize, room: usize, old: Option<&StorageFlags>, new: Option<&StorageFlags>| {
        let answer = both::totals_replace(&totals, old, new, [ENOUGH; 3]);
        assert!(answer.is_ok(), "{answer:?}");
        assert_eq!(both::totals_replace(&totals, old, new, [room; 3]), answer, "exact room");
        for (place, short) in (0..3).flat_map(|place| (least..room).map(move |short| (place, short))) {
            let mut rooms = [room; 3];
            rooms[place] = short;
            assert_eq!(both::totals_replace(&totals, old, new, rooms), Err(NoRoom), "{rooms:?}");
        }
        // over structs each slice of the work area needs as much, and more of a table than that does not matter
        let over_structs = |works| both::totals_replace_structs(&totals, old, new, ENOUGH, works);
        assert_eq!(over_structs([room; 3]), answer, "exact work area");
        for (place, short) in (0..3).flat_map(|place| (0..room).map(move |short| (place, short))) {
            let mut works = [ENOUGH; 3];
            works[place] = short;
            assert_eq!(over_structs(works), Err(NoRoom), "{works:?}");
        }
    };
    needs_each(2, 4, None, Some(&new));
    needs_each(2, 3, None, Some(&owned(&new)));
    // the row at 9 goes and that at 6 comes
    needs_each(2, 2, Some(&owned(&old)), Some(&owned(&new)));
    needs_each(2, 3, Some(&owned(&old)), Some(&new));
    // the row at 9 goes, and the rows before need room to work in
    needs_each(2, 2, Some(&owned(&records([(9, 5)]))), None);
}

/// The tables need not be of one length; the shorter one decides.
#[test]
fn tables_of_two_lengths() {
    let bytes = [1, 0, 5, 0, 7, 10, 0, 9, 5];
    let (mut epochs, mut counts) = ([1; 2], [1; 1]);
    assert_eq!(lent::deserialize(&bytes, &mut epochs, &mut counts), Err(NoRoom));
    assert_eq!((epochs, counts), ([1; 2], [1; 1]));
    let head = Head {
        kind: Head::MULTI_EPOCH,
        base: 5,
        records: 2,
        ..Head::default()
    };
    let short = Flags {
        head,
        epochs: &[7, 9],
        counts: &[10],
    };
    assert_eq!(lent::serialized_size(short), Err(petasunok::StorageFlagsError::BadTable));
}
