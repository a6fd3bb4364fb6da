//! Document 01's examples P1 to P14 and its boundaries, over the owned calls and the lent ones.
mod both;
use both::{records, sections, Answer, ENOUGH};
use petasunok::MergingOwnersStrategy::RaiseIssue;
use petasunok::StorageFlags::SingleEpoch;
use petasunok::StorageFlagsError::*;
use petasunok::StorageRemovedBytes::{self, *};
use petasunok::{StorageFlags, StorageRemovalPerEpochByIdentifier, ValueSplit};

/// An example of reading: its name, the bytes, and what they say.
type Reading = (&'static str, &'static [u8], Answer<Option<StorageFlags>>);

#[test]
fn p1_to_p9_reading() {
    let examples: [Reading; 9] = [
        ("P1", &[], Ok(None)),
        ("P2", &[0, 0, 5], Ok(Some(SingleEpoch(5)))),
        ("P3", &[0, 5], Err(StorageFlagsWrongSize)),
        ("P4", &[1, 0, 5], Err(StorageFlagsWrongSize)),
        ("P5", &[1, 0, 5, 0, 7, 0xAC, 2], Ok(Some(records([(7, 300)])))),
        ("P6", &[1, 0, 5, 0, 5, 1], Err(NonCanonicalStorageFlags)),
        ("P7", &[1, 0, 5, 0, 7, 0x81, 0], Err(NonCanonicalStorageFlags)),
        ("P8", &[1, 0, 5, 0, 7, 0x80], Err(StorageFlagsWrongSize)),
        ("P9", &[4], Err(DeserializeUnknownStorageFlagsType)),
    ];
    for (name, bytes, expected) in examples {
        assert_eq!(both::deserialize(bytes, ENOUGH), expected, "{name}");
        if let Ok(Some(flags)) = expected {
            assert_eq!(both::serialize(&flags, ENOUGH), Ok(bytes.to_vec()), "{name} written again");
        }
    }
}

/// A value split, and its merge with incoming flags at 9.
fn split_and_merged(flags: &StorageFlags, value: u32) -> (StorageRemovedBytes, usize, StorageFlags) {
    let split = both::split_value_removed_bytes(flags, value, ENOUGH).unwrap();
    let merged = both::combine_removed_bytes(flags, &SingleEpoch(9), &split.removal, RaiseIssue, ENOUGH).unwrap();
    (split.removal, split.visited, merged)
}

#[test]
fn p10_to_p12_splitting() {
    let flags = records([(7, 10), (9, 5)]);
    assert_eq!(
        split_and_merged(&flags, 6),
        (sections([(7, 4), (9, 2)]), 2, records([(7, 6)])),
        "P10"
    );
    assert_eq!(
        split_and_merged(&flags, 20),
        (sections([(5, 11), (7, 7), (9, 2)]), 2, SingleEpoch(5)),
        "P11"
    );
    let flags = records([(7, 10), (9, 3)]);
    assert_eq!(
        split_and_merged(&flags, 1),
        (sections([(7, 1), (9, 0)]), 2, records([(7, 9)])),
        "P12"
    );
}

#[test]
fn p13_adding() {
    let ours = records([(7, 300)]);
    let added = |epoch, bytes| both::combine_added_bytes(&ours, &SingleEpoch(epoch), bytes, RaiseIssue, ENOUGH);
    assert_eq!(added(7, 50), Ok(records([(7, 350)])));
    assert_eq!(added(8, 0), Ok(records([(7, 300), (8, 0)])));
}

#[test]
fn p14_sums() {
    let sum = |version| both::add_assign(&BasicStorageRemoval(4), &sections([(3, 10)]), version, ENOUGH);
    assert_eq!(sum(0), Ok(SectionedStorageRemoval(StorageRemovalPerEpochByIdentifier::new())));
    assert_eq!(sum(1), Ok(sections([(3, 10), (65535, 4)])));
}

#[test]
fn boundaries() {
    assert_eq!(split_and_merged(&records([(7, 4)]), 1).2, SingleEpoch(5));
    assert_eq!(split_and_merged(&records([(7, 5)]), 1).2, records([(7, 4)]));
    let split = |value| both::split_value_removed_bytes(&records([(7, 10)]), value, ENOUGH);
    let visiting_one = |removal| Ok(ValueSplit { removal, visited: 1 });
    assert_eq!(split(4_294_967_292), visiting_one(sections([(5, 4_294_967_285), (7, 7)])));
    assert_eq!(split(4_294_967_293), visiting_one(sections([(5, 4_294_967_286), (7, 7)])));
}

/// Request (viii): a key's bytes all stand at the base, under the owner, whatever their number is.
#[test]
fn a_key_of_any_size() {
    for flags in [SingleEpoch(5), records([(7, 1)]), records([(7, 10), (9, u32::MAX)])] {
        for key in [1, 4_294_967_292, 4_294_967_293, u32::MAX] {
            let split = |room| both::split_key_removed_bytes(&flags, key, room);
            assert_eq!(split(1), Ok(sections([(5, key)])), "{flags}, {key} bytes");
            assert_eq!(split(0), Err(NoRoom), "{flags}, {key} bytes");
        }
    }
    let owned = StorageFlags::MultiEpochOwned(5, [(7, 1)].into(), [1; 32]);
    let under_owner = SectionedStorageRemoval([([1; 32], 5, 8)].into());
    assert_eq!(both::split_key_removed_bytes(&owned, 8, 1), Ok(under_owner));
}

/// Request (viii): no bytes are no removal and need no room, of a key and of a value.
#[test]
fn no_bytes() {
    for flags in [SingleEpoch(5), records([(7, 10), (9, 5)])] {
        assert_eq!(both::split_key_removed_bytes(&flags, 0, 0), Ok(NoStorageRemoval), "{flags}");
        let nothing = ValueSplit {
            removal: NoStorageRemoval,
            visited: 0,
        };
        assert_eq!(both::split_value_removed_bytes(&flags, 0, 0), Ok(nothing), "{flags}");
    }
}

/// Request (v): every amount is split by the rule, where the original overflows too.
#[test]
fn the_top_three_amounts() {
    for value in [4_294_967_293, 4_294_967_294, 4_294_967_295] {
        assert_eq!(
            split_and_merged(&records([(7, 1)]), value),
            (sections([(5, value), (7, 0)]), 1, SingleEpoch(5))
        );
    }
    let most = records([(7, 10), (9, u32::MAX)]);
    assert_eq!(
        split_and_merged(&most, 4_294_967_294),
        (sections([(7, 2), (9, 4_294_967_292)]), 2, records([(7, 8)]))
    );
    assert_eq!(
        split_and_merged(&most, 4_294_967_295),
        (sections([(7, 3), (9, 4_294_967_292)]), 2, records([(7, 7)]))
    );
    // a row less than the split has
    assert_eq!(both::split_value_removed_bytes(&records([(7, 1)]), 4_294_967_295, 1), Err(NoRoom));
}
