//! Other forms of flags and removals: maps and tables, element flags, and texts.
mod both;
use both::{records, sections};
use petasunok::StorageFlags::{self, *};
use petasunok::{EpochMap, Identifier, StorageFlagsError, StorageRemovalPerEpochByIdentifier, StorageRemovedBytes};
use std::borrow::Cow;
use std::collections::BTreeMap;

#[test]
fn an_epoch_map_is_made_as_a_map_is() {
    let pairs = [(9, 1), (7, 2), (9, 3), (8, 0)];
    let map = BTreeMap::from(pairs);
    let ours = EpochMap::from(pairs);
    assert_eq!(ours, EpochMap::from(map.clone()));
    assert!(ours.iter().eq(map.iter()) && (&ours).into_iter().eq(&map));
    assert_eq!(
        (ours.epochs(), ours.counts(), ours.len(), ours.is_empty()),
        ([7, 8, 9].as_slice(), [2, 0, 3].as_slice(), 3, false)
    );
    assert_eq!(BTreeMap::from(ours.clone()), map);
    assert_eq!(ours.into_tables(), (vec![7, 8, 9], vec![2, 0, 3]));
    assert!(EpochMap::new().is_empty());
}

#[test]
fn an_epoch_map_is_read_and_changed_as_a_map_is() {
    let (mut ours, mut map) = (EpochMap::new(), BTreeMap::new());
    for (epoch, count) in [(9, 1), (7, 2), (9, 3), (65535, 4), (0, 5)] {
        assert_eq!(ours.get(&epoch), map.get(&epoch));
        assert_eq!(ours.insert(epoch, count), map.insert(epoch, count));
        assert!(ours.iter().eq(map.iter()));
    }
}

#[test]
fn sections_are_made_as_a_map_of_maps_is() {
    let rows: [(Identifier, u16, u32); 4] = [([1; 32], 3, 1), ([0; 32], 9, 2), ([1; 32], 3, 4), ([0; 32], 7, 0)];
    let mut map: BTreeMap<Identifier, BTreeMap<u16, u32>> = BTreeMap::new();
    for (id, epoch, bytes) in rows {
        map.entry(id).or_default().insert(epoch, bytes);
    }
    let ours = StorageRemovalPerEpochByIdentifier::from(rows);
    assert_eq!(
        ours.iter().collect::<Vec<_>>(),
        [(&[0; 32], 7, 0), (&[0; 32], 9, 2), (&[1; 32], 3, 4)]
    );
    assert_eq!((ours.len(), ours.is_empty()), (3, false));
    assert_eq!((ours.get(&[1; 32], 3), ours.get(&[1; 32], 9)), (Some(4), None));
    assert_eq!(BTreeMap::from(ours.clone()), map);
    // an identifier without sections is left out
    map.insert([2; 32], BTreeMap::new());
    assert_eq!(StorageRemovalPerEpochByIdentifier::from(map), ours);
    let (ids, epochs, bytes) = ours.clone().into_tables();
    assert_eq!(StorageRemovalPerEpochByIdentifier::from_tables(ids, epochs, bytes), Ok(ours));
}

#[test]
fn tables_of_different_lengths_are_refused() {
    let bad = Err(StorageFlagsError::BadTable);
    assert_eq!(EpochMap::from_tables(vec![7], vec![]), bad);
    let bad = Err(StorageFlagsError::BadTable);
    assert_eq!(StorageRemovalPerEpochByIdentifier::from_tables(vec![[0; 32]], vec![7], vec![]), bad);
    assert_eq!(StorageRemovalPerEpochByIdentifier::from_tables(vec![[0; 32]], vec![], vec![7]), bad);
}

#[test]
fn element_flags() {
    let flags = records([(7, 300)]);
    let bytes = vec![1, 0, 5, 0, 7, 0xAC, 2];
    let some = Ok(Some(bytes.clone()));
    assert_eq!(flags.to_element_flags(), Ok(bytes.clone()));
    assert_eq!(flags.to_some_element_flags(), some);
    assert_eq!(StorageFlags::map_to_some_element_flags(Some(&flags)), some);
    assert_eq!(StorageFlags::map_cow_to_some_element_flags(flags.clone().into_optional_cow()), some);
    assert_eq!(
        StorageFlags::map_borrowed_cow_to_some_element_flags(&Some(Cow::Borrowed(&flags))),
        some
    );
    assert_eq!(StorageFlags::map_owned_to_element_flags(Some(flags.clone())), Ok(bytes.clone()));
    assert_eq!(StorageFlags::map_owned_to_element_flags(None), Ok(vec![]));
    assert_eq!(StorageFlags::map_to_some_element_flags(None), Ok(None));
    assert_eq!(StorageFlags::from_slice(&bytes), Ok(Some(flags.clone())));
    assert_eq!(StorageFlags::from_element_flags_ref(&bytes), Ok(Some(flags.clone())));
    assert_eq!(StorageFlags::map_some_element_flags_ref(&None), Ok(None));
    assert_eq!(
        StorageFlags::map_cow_some_element_flags_ref(&Some(bytes)),
        Ok(Some(Cow::Owned(flags)))
    );
    assert_eq!(records([]).to_element_flags(), Err(StorageFlagsError::BadTable));
    assert_eq!(
        (StorageFlags::optional_default(), StorageFlags::optional_default_as_ref()),
        (None, None)
    );
    assert_eq!(StorageFlags::optional_default_as_cow(), None);
}

#[test]
fn texts_are_the_original_ones() {
    let owner = "ab".repeat(32);
    assert_eq!(SingleEpoch(5).to_string(), "SingleEpoch(BaseEpoch: 5)");
    assert_eq!(
        records([(7, 10), (9, 5)]).to_string(),
        "MultiEpoch(BaseEpoch: 5, Epochs: [EpochIndex: 7, BytesAdded: 10] [EpochIndex: 9, BytesAdded: 5] )"
    );
    assert_eq!(
        SingleEpochOwned(5, [0xAB; 32]).to_string(),
        format!("SingleEpochOwned(BaseEpoch: 5, OwnerId: {owner})")
    );
    assert_eq!(
        MultiEpochOwned(5, [(7, 10)].into(), [0xAB; 32]).to_string(),
        format!("MultiEpochOwned(BaseEpoch: 5, Epochs: [EpochIndex: 7, BytesAdded: 10] , OwnerId: {owner})")
    );
}

#[test]
fn totals() {
    let none = StorageRemovedBytes::default();
    assert_eq!((none.has_removal(), none.total_removed_bytes()), (Ok(false), Ok(0)));
    let zeros = sections([(7, 0), (9, 0)]);
    assert_eq!((zeros.has_removal(), zeros.total_removed_bytes()), (Ok(false), Ok(0)));
    let most = sections([(7, u32::MAX - 1), (9, 1)]);
    assert_eq!((most.has_removal(), most.total_removed_bytes()), (Ok(true), Ok(u32::MAX)));
    assert_eq!(StorageRemovedBytes::BasicStorageRemoval(4).total_removed_bytes(), Ok(4));
}
