//! Every refusal, by the call that gives it, over the owned calls and the lent ones.
mod both;
use both::{records, sections, Answer, ENOUGH};
use petasunok::lent::{self, Flags, Head, Removal, Rows};
use petasunok::MergingOwnersStrategy::RaiseIssue;
use petasunok::StorageFlags::{SingleEpoch, SingleEpochOwned};
use petasunok::{EpochMap, StorageFlags, StorageFlagsError, StorageRemovalPerEpochByIdentifier, StorageRemovedBytes, Totals};

/// The number of a refusal, 0 for an answer.
fn number<T>(answer: Answer<T>) -> u32 {
    answer.map_or_else(StorageFlagsError::number, |_| 0)
}

fn added(ours: &StorageFlags, theirs: &StorageFlags, bytes: u32) -> u32 {
    number(both::combine_added_bytes(ours, theirs, bytes, RaiseIssue, ENOUGH))
}

fn removed(ours: &StorageFlags, theirs: &StorageFlags, removal: &StorageRemovedBytes) -> u32 {
    number(both::combine_removed_bytes(ours, theirs, removal, RaiseIssue, ENOUGH))
}

/// The numbers of all refusals that are given.
const GIVEN: [u32; 11] = [1, 2, 3, 4, 5, 6, 7, 9, 10, 11, 14];

/// The number that stays taken, and is no longer given.
const RETIRED: u32 = 8;

#[test]
fn each_number_once() {
    let ours = records([(7, 10)]);
    let large = sections([(7, u32::MAX), (9, 1)]);
    assert_eq!(large.total_removed_bytes().map_err(StorageFlagsError::number), Err(9), "owned");
    let numbers = [
        number(both::deserialize(&[4], ENOUGH)),
        number(both::deserialize(&[0, 5], ENOUGH)),
        number(both::deserialize(&[1, 0, 5, 0, 5, 1], ENOUGH)),
        added(&ours, &SingleEpoch(4), 1),
        added(&SingleEpochOwned(5, [1; 32]), &SingleEpochOwned(5, [2; 32]), 1),
        added(&ours, &SingleEpoch(7), u32::MAX),
        removed(&ours, &SingleEpoch(9), &sections([(8, 1)])),
        number(lent::total_removed_bytes(large.as_lent())),
        number(both::deserialize(&[1, 0, 5, 0, 7, 1], 0)),
        number(both::serialize(&StorageFlags::MultiEpoch(5, EpochMap::new()), ENOUGH)),
        number(both::totals_replace(&Totals::new(), Some(&ours), None, [ENOUGH; 3])),
    ];
    assert_eq!(numbers.to_vec(), GIVEN);
}

#[test]
fn numbers_and_refusals_match() {
    let mut numbers = [&GIVEN[..], &[RETIRED]].concat();
    numbers.sort_unstable();
    assert_eq!(StorageFlagsError::ALL.map(StorageFlagsError::number).to_vec(), numbers);
    for refusal in StorageFlagsError::ALL {
        assert_eq!(StorageFlagsError::from_number(refusal.number()), Some(refusal));
        assert!(!refusal.to_string().is_empty());
    }
    for number in [0, 12, 13, 15] {
        assert_eq!(StorageFlagsError::from_number(number), None);
    }
}

/// 8 still names the refusal that it named, and says that it is no longer given; no amount gets it.
#[test]
fn eight_stays_taken() {
    let refusal = StorageFlagsError::from_number(RETIRED);
    assert_eq!(refusal, Some(StorageFlagsError::RemovalTooLarge));
    assert!(refusal.is_some_and(|refusal| refusal.to_string().contains("no longer given")));
    for bytes in u32::MAX - 4..=u32::MAX {
        for flags in [records([(7, 1)]), records([(7, 10), (9, u32::MAX)]), SingleEpoch(5)] {
            assert_eq!(number(both::split_key_removed_bytes(&flags, bytes, 1)), 0, "{flags}, {bytes} bytes");
            assert_eq!(
                number(both::split_value_removed_bytes(&flags, bytes, ENOUGH)),
                0,
                "{flags}, {bytes} bytes"
            );
        }
    }
}

/// A repair gives 1, 2 and 10, and where the bytes are refused the room is not looked at.
#[test]
fn repairs() {
    for rooms in [(0, 0, 0), (ENOUGH, ENOUGH, ENOUGH)] {
        assert_eq!(number(both::repair(&[4], rooms)), 1);
        assert_eq!(number(both::repair(&[1, 0], rooms)), 2);
    }
    assert_eq!(number(both::repair(&[0, 0, 5], (0, 0, 0))), 10);
}

#[test]
fn removing_merges() {
    let ours = records([(7, 10), (9, 5)]);
    let incoming = SingleEpoch(9);
    assert_eq!(removed(&ours, &incoming, &sections([(7, 11)])), 6, "more than the record holds");
    assert_eq!(removed(&ours, &incoming, &sections([(7, 11), (8, 1)])), 6, "the first fault");
    assert_eq!(removed(&ours, &incoming, &sections([(6, 1), (7, 11)])), 7, "the first fault");
    assert_eq!(removed(&ours, &SingleEpoch(4), &sections([])), 4);
    assert_eq!(removed(&ours, &incoming, &sections([])), 5, "no section under our owner");
    let two = [([0; 32], 7, 1), ([1; 32], 7, 1)].into();
    assert_eq!(
        removed(&ours, &incoming, &StorageRemovedBytes::SectionedStorageRemoval(two)),
        5,
        "two identifiers"
    );
    let owned = SingleEpochOwned(5, [1; 32]);
    assert_eq!(
        removed(&owned, &SingleEpochOwned(9, [2; 32]), &sections([])),
        0,
        "one epoch comes back unchanged"
    );
}

/// Flags and rows that are not proper are refused with 11 by every call that is given them.
#[test]
fn bad_tables() {
    let fine = records([(7, 10)]);
    let none = StorageRemovedBytes::NoStorageRemoval;
    let falling = EpochMap::from_tables(vec![9, 7], vec![1, 1]).unwrap();
    for bad in [
        records([]),
        records([(5, 1)]),
        records([(4, 1), (7, 1)]),
        StorageFlags::MultiEpochOwned(5, falling, [1; 32]),
    ] {
        assert_eq!(number(both::serialize(&bad, ENOUGH)), 11, "{bad}");
        assert_eq!(number(bad.serialized_size()), 11, "{bad}");
        assert_eq!(added(&fine, &bad, 1), 11, "{bad}");
        assert_eq!(added(&bad, &fine, 1), 11, "{bad}");
        assert_eq!(removed(&bad, &SingleEpoch(9), &none), 11, "{bad}");
        assert_eq!(number(both::split_key_removed_bytes(&bad, 1, ENOUGH)), 11, "{bad}");
        assert_eq!(number(both::split_key_removed_bytes(&bad, 0, 0)), 11, "{bad}");
        assert_eq!(number(both::split_value_removed_bytes(&bad, 1, ENOUGH)), 11, "{bad}");
        assert_eq!(number(both::split_value_removed_bytes(&bad, 0, 0)), 11, "{bad}");
        assert_eq!(
            number(StorageFlags::optional_combine_added_bytes(None, bad.clone(), 1, RaiseIssue)),
            11,
            "{bad}"
        );
        for (old, new) in [
            (Some(&bad), None),
            (None, Some(&bad)),
            (Some(&bad), Some(&fine)),
            (Some(&fine), Some(&bad)),
        ] {
            assert_eq!(number(both::totals_replace(&Totals::new(), old, new, [ENOUGH; 3])), 11, "{bad}");
        }
    }
    for (ids, epochs) in [(vec![[0; 32]; 2], vec![7, 7]), (vec![[1; 32], [0; 32]], vec![7, 9])] {
        let rows = StorageRemovalPerEpochByIdentifier::from_tables(ids, epochs, vec![1, 1]).unwrap();
        let bad = StorageRemovedBytes::SectionedStorageRemoval(rows);
        assert_eq!(number(bad.has_removal()), 11);
        assert_eq!(number(bad.total_removed_bytes()), 11);
        assert_eq!(number(both::add_assign(&bad, &none, 1, ENOUGH)), 11);
        assert_eq!(number(both::add_assign(&none, &bad, 1, ENOUGH)), 11);
        assert_eq!(removed(&fine, &SingleEpoch(9), &bad), 11);
        assert_eq!(
            number(StorageFlags::optional_combine_removed_bytes(None, fine.clone(), &bad, RaiseIssue)),
            11
        );
    }
}

/// What only lent values can say: a kind that does not exist, and more records or rows than their tables have.
#[test]
fn bad_lent_values() {
    let bad = [
        Head {
            kind: 4,
            ..Head::default()
        },
        Head {
            kind: 1,
            records: 1,
            ..Head::default()
        },
        Head {
            records: 1,
            ..Head::default()
        },
    ];
    for head in bad {
        assert_eq!(number(lent::serialized_size(Flags::of(head))), 11, "{head:?}");
    }
    for removal in [
        Removal { kind: 3, ..Removal::NONE },
        Removal::sectioned(1),
        Removal::sectioned(usize::MAX),
    ] {
        assert_eq!(number(lent::has_removal(Rows::of(removal))), 11, "{removal:?}");
    }
}
