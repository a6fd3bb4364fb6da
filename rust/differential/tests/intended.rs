//! Each intended difference with its smallest input: what the original answers, or that it panics, and what is answered here. In a dev build
//! overflow panics, and so do the original's assertions; in a release build overflow wraps.
use differential::boundary;
use differential::intended::{Intended, INTENDED};
use differential::question::{Merge, Question, Reader, Reply, Split};
use differential::values::*;
use grovedb_costs::storage_cost::removal::StorageRemovedBytes::{self, BasicStorageRemoval, SectionedStorageRemoval};
use grovedb_epoch_based_storage_flags::error::StorageFlagsError;
use grovedb_epoch_based_storage_flags::{MergingOwnersStrategy::RaiseIssue, StorageFlags};
use std::cell::Cell;
use std::collections::BTreeMap;
use std::panic::{catch_unwind, set_hook, take_hook, UnwindSafe};
use std::sync::Once;

thread_local! {
    static QUIET: Cell<bool> = const { Cell::new(false) };
}

/// What the original answers; none where it panics, whose message is not printed.
fn original<T>(ask: impl FnOnce() -> T + UnwindSafe) -> Option<T> {
    static HOOK: Once = Once::new();
    HOOK.call_once(|| {
        let usual = take_hook();
        set_hook(Box::new(move |panic| {
            if !QUIET.get() {
                usual(panic);
            }
        }));
    });
    QUIET.set(true);
    let answer = catch_unwind(ask).ok();
    QUIET.set(false);
    answer
}

/// An answer of a release build, where a dev build panics.
fn in_release<T>(answer: T) -> Option<T> {
    (!cfg!(debug_assertions)).then_some(answer)
}

/// Our refusal, 0 where there is an answer.
fn refusal(question: Question) -> u32 {
    boundary::ask(&question).refusal()
}

/// Unowned flags at base 5.
fn at_five(records: &[(u16, u32)]) -> Flags {
    Flags::new(1, 5, ZEROS, records)
}

/// The same in the original.
fn original_at_five(records: &[(u16, u32)]) -> StorageFlags {
    StorageFlags::MultiEpoch(5, records.iter().copied().collect())
}

/// Sections in the original; an identifier may have none.
fn sections(given: &[(Id, &[(u16, u32)])]) -> StorageRemovedBytes {
    let of_one = |(id, epochs): &(Id, &[(u16, u32)])| (*id, epochs.iter().copied().collect());
    SectionedStorageRemoval(given.iter().map(of_one).collect::<BTreeMap<_, _>>())
}

fn room(length: usize) -> Tables {
    Tables { epochs: vec![9; length], counts: vec![9; length] }
}

fn row_room(length: usize) -> Rows {
    Rows { ids: vec![[9; 32]; length], epochs: vec![9; length], bytes: vec![9; length] }
}

fn split(records: &[(u16, u32)], value: u32) -> Question {
    Question::SplitValue(Split { flags: at_five(records), bytes: value, rows: row_room(2) })
}

fn removing(with: Removal) -> Question {
    let (ours, theirs) = (at_five(&[(7, 10)]), Flags::new(0, 9, ZEROS, &[]));
    Question::CombineRemoved(Merge { present: None, ours, theirs, with, strategy: 0, lent: room(1) })
}

fn original_removing(removal: &StorageRemovedBytes) -> Result<StorageFlags, StorageFlagsError> {
    original_at_five(&[(7, 10)]).combine_removed_bytes(StorageFlags::SingleEpoch(9), removal, RaiseIssue)
}

/// The rows of the value that our split leaves, of one record at 7.
fn rows_of_split(count: u32, value: u32) -> Vec<(Id, u16, u32)> {
    let Reply::ValueSplit { answer, rows } = boundary::ask(&split(&[(7, count)], value)) else { panic!("a split answers a split") };
    Removal { state: answer.removal, rows }.rows().collect()
}

#[test]
fn the_top_three_amounts() {
    let largest = u32::MAX - 3;
    let original_split = |count, value| original(move || original_at_five(&[(7, count)]).split_storage_removed_bytes(0, value).1);
    assert_eq!(original_split(1, largest), Some(sections(&[(ZEROS, &[(5, largest), (7, 0)])])));
    assert_eq!(rows_of_split(1, largest), [(ZEROS, 5, largest), (ZEROS, 7, 0)]);
    // of one to three bytes more the original takes all from a record that holds as many; here the rule holds for every amount
    for more in 1..=3 {
        let value = largest + more;
        assert_eq!(original_split(more, value), in_release(sections(&[(ZEROS, &[(7, value)])])));
        assert_eq!(rows_of_split(more, value), [(ZEROS, 5, value), (ZEROS, 7, 0)]);
    }
}

#[test]
fn total_too_large() {
    let total = |second| original(move || sections(&[(ZEROS, &[(0, u32::MAX), (1, second)])]).total_removed_bytes());
    let ours = |second| refusal(Question::TotalRemovedBytes { removal: Removal::sectioned(&[(ZEROS, 0, u32::MAX), (ZEROS, 1, second)]) });
    assert_eq!((total(0), ours(0)), (Some(u32::MAX), 0));
    assert_eq!((total(1), ours(1)), (in_release(0), 9));
}

#[test]
fn no_room() {
    let src = vec![1, 0, 5, 0, 7, 1];
    let read = |length| refusal(Question::Read { reader: Reader::Any, src: vec![1, 0, 5, 0, 7, 1], lent: room(length) });
    assert_eq!(StorageFlags::deserialize(&src), Ok(Some(original_at_five(&[(7, 1)]))));
    assert_eq!((read(0), read(1)), (10, 0));
    let write = |length| refusal(Question::Serialize { flags: at_five(&[(7, 1)]), out: vec![9; length] });
    assert_eq!(original_at_five(&[(7, 1)]).serialize(), src);
    assert_eq!((write(5), write(6)), (10, 0));
}

#[test]
fn a_byte_that_names_nothing() {
    // the original has enums, so it cannot be asked
    assert_eq!(refusal(Question::SerializedSize { flags: Flags::new(4, 5, ZEROS, &[]) }), 11);
    assert_eq!(refusal(Question::CombineOwnerId { ours: vec![], theirs: vec![], strategy: 3 }), 11);
    let state = petasunok_removal { kind: 3, bytes: 0, rows: 0 };
    assert_eq!(refusal(Question::HasRemoval { removal: Removal { state, rows: Rows::default() } }), 11);
}

#[test]
fn a_count_past_its_table() {
    // the original's maps have their own length, so it cannot be asked
    let head = petasunok_head { kind: 1, base: 5, owner: ZEROS, records: 1 };
    assert_eq!(refusal(Question::SerializedSize { flags: Flags { head, tables: Tables::default() } }), 11);
    let state = petasunok_removal { kind: 2, bytes: 0, rows: 1 };
    assert_eq!(refusal(Question::HasRemoval { removal: Removal { state, rows: Rows::default() } }), 11);
}

#[test]
fn flags_or_rows_not_proper() {
    for records in [&[][..], &[(5, 1)]] {
        // written, its own reader refuses them; its assertions stand in serialize only
        let bytes = original(|| original_at_five(records).serialize());
        assert_eq!(bytes.is_some(), in_release(()).is_some());
        assert!(bytes.is_none_or(|bytes| StorageFlags::deserialize(&bytes).is_err()));
        assert_eq!(original(|| original_at_five(records).serialized_size()), Some(3 + 3 * records.len() as u32));
        assert_eq!(refusal(Question::Serialize { flags: at_five(records), out: vec![9; 9] }), 11);
        assert_eq!(refusal(Question::SerializedSize { flags: at_five(records) }), 11);
        // merged as they are
        let merged = original_at_five(records).combine_added_bytes(StorageFlags::SingleEpoch(5), 1, RaiseIssue);
        assert_eq!(merged, Ok(original_at_five(records)));
        let (ours, theirs) = (at_five(records), Flags::new(0, 5, ZEROS, &[]));
        assert_eq!(refusal(Question::CombineAdded(Merge { present: None, ours, theirs, with: 1, strategy: 0, lent: room(1) })), 11);
    }
    // rows out of order cannot stand in the original's map
    let rows = [(ZEROS, 1, 0), (ZEROS, 0, 0)];
    assert_eq!(refusal(Question::HasRemoval { removal: Removal::sectioned(&rows) }), 11);
}

#[test]
fn two_sections_at_fault() {
    // 11 of the 10 bytes at 7, and none at 8, where no record is
    let both = sections(&[(ZEROS, &[(7, 11), (8, 0)])]);
    assert!(matches!(original_removing(&both), Err(StorageFlagsError::StorageFlagsOverflow(_))));
    let other_order = intmap::descending(|| original_removing(&both));
    assert!(matches!(other_order, Err(StorageFlagsError::RemovingAtEpochWithNoAssociatedStorage(_))));
    assert_eq!(refusal(removing(Removal::sectioned(&[(ZEROS, 7, 11), (ZEROS, 8, 0)]))), 6);
}

#[test]
fn an_identifier_without_sections() {
    // ours without sections takes nothing; here there is no such identifier, and a removal without rows is not ours
    assert_eq!(original_removing(&sections(&[(ZEROS, &[])])), Ok(original_at_five(&[(7, 10)])));
    assert!(matches!(original_removing(&sections(&[])), Err(StorageFlagsError::MergingStorageFlagsFromDifferentOwners(_))));
    assert_eq!(refusal(removing(Removal::sectioned(&[]))), 5);
    // another without sections counts as one
    let two = sections(&[(ZEROS, &[(7, 1)]), ([1; 32], &[])]);
    assert!(matches!(original_removing(&two), Err(StorageFlagsError::MergingStorageFlagsFromDifferentOwners(_))));
    assert_eq!(refusal(removing(Removal::sectioned(&[(ZEROS, 7, 1)]))), 0);
    // at version 0 it makes a basic number vanish
    let mut sum = BasicStorageRemoval(4);
    sum += sections(&[(ZEROS, &[])]);
    assert_eq!(sum, sections(&[]));
    let mut ours = Removal::basic(4);
    ours.rows = row_room(1);
    let reply = boundary::ask(&Question::AddAssign { ours, rhs: Removal::sectioned(&[]), version: 0 });
    let Reply::Sum { answer, rows } = reply else { panic!("a sum answers a sum") };
    assert_eq!((answer.removal.rows, rows.ids[0], rows.epochs[0], rows.bytes[0]), (1, ZEROS, 65_535, 4));
}

/// The rows that a sum of ours leaves.
fn rows_of_sum(ours: Removal, rhs: Removal, version: u16) -> Vec<(Id, u16, u32)> {
    let Reply::Sum { answer, rows } = boundary::ask(&Question::AddAssign { ours, rhs, version }) else { panic!("a sum answers a sum") };
    Removal { state: answer.removal, rows }.rows().collect()
}

#[test]
fn the_version_is_an_argument() {
    let row = [(ZEROS, 0, 0)];
    let both = vec![(ZEROS, 0, 0), (ZEROS, 65_535, 0)];
    // without a guard the original's version is 0
    let mut sum = BasicStorageRemoval(0);
    sum += sections(&[(ZEROS, &[(0, 0)])]);
    assert_eq!(sum, sections(&[]));
    let basic = || Removal { rows: row_room(2), ..Removal::basic(0) };
    assert_eq!(rows_of_sum(basic(), Removal::sectioned(&row), 0), vec![]);
    assert_eq!(rows_of_sum(basic(), Removal::sectioned(&row), 1), both);
    // `+`, which is left out here, loses where `+=` does not
    let (left, right) = (sections(&[(ZEROS, &[(0, 0)])]), BasicStorageRemoval(0));
    assert_eq!(left.clone() + right.clone(), sections(&[]));
    let mut sum = left;
    sum += right;
    assert_eq!(sum, sections(&[(ZEROS, &[(0, 0), (65_535, 0)])]));
    let mut ours = Removal { rows: row_room(2), ..Removal::sectioned(&row) };
    (ours.rows.ids[0], ours.rows.epochs[0], ours.rows.bytes[0]) = row[0];
    assert_eq!(rows_of_sum(ours, Removal::basic(0), 0), both);
}

#[test]
fn numbers_stand_for_texts() {
    let text = "single epoch must be 3 bytes total".to_string();
    assert_eq!(StorageFlags::deserialize(&[0, 5]), Err(StorageFlagsError::StorageFlagsWrongSize(text)));
    assert_eq!(refusal(Question::Read { reader: Reader::Any, src: vec![0, 5], lent: room(0) }), 2);
}

#[test]
fn each_is_in_the_list_once() {
    assert_eq!(INTENDED.len(), 8);
    for (place, (intended, _, _)) in INTENDED.iter().enumerate() {
        assert_eq!(Intended::place(*intended), place);
    }
}
