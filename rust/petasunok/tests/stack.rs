//! The stack that reading takes: blocks of 64 records wait in it for those behind them, up to 16,384 records, which take some 170 KiB. A
//! repair has tables over all epochs in it, which take less than 1 MiB. A change of totals has nothing in it.
use petasunok::lent;
use petasunok::StorageFlagsError::NonCanonicalStorageFlags;
use petasunok::{repair, EpochMap, StorageFlags, Totals};
use std::collections::BTreeSet;
use std::thread;

/// Flags of kind 1 over base 0 with all epochs up to the last, and the largest count in each.
fn encoded(last: u16) -> Vec<u8> {
    let record = |epoch: u16| epoch.to_be_bytes().into_iter().chain([0xff, 0xff, 0xff, 0xff, 0x0f]);
    [1, 0, 0].into_iter().chain((1..=last).flat_map(record)).collect()
}

/// What some work answers in a thread with a stack of so many KiB.
fn in_thread<T: Send + 'static>(kib: usize, work: impl FnOnce() -> T + Send + 'static) -> T {
    let thread = thread::Builder::new().stack_size(1024 * kib).spawn(work).expect("a thread");
    thread.join().expect("an answer")
}

/// Reads so many records in a thread with a stack of so many KiB, as they are and with a fault in the last.
fn read_in(kib: usize, records: u16) {
    let room = usize::from(records);
    let good = encoded(records);
    let mut faulty = good.clone();
    *faulty.last_mut().expect("a record has bytes") = 0x10;
    let (mut epochs, mut counts) = (vec![0; room], vec![0; room]);
    let work = move || {
        let refusal = lent::deserialize(&faulty, &mut epochs, &mut counts).err();
        let head = lent::deserialize(&good, &mut epochs, &mut counts).ok().flatten();
        (refusal, head.map(|head| head.records), epochs.last() == Some(&records))
    };
    assert_eq!(
        in_thread(kib, work),
        (Some(NonCanonicalStorageFlags), Some(room), true),
        "{records} records in {kib} KiB"
    );
}

#[test]
fn a_small_stack_is_enough() {
    read_in(32, 1_024);
    read_in(256, 16_384);
    read_in(256, u16::MAX);
}

#[test]
fn a_repair_has_enough_in_a_mebibyte_and_a_half() {
    let good = encoded(u16::MAX);
    let records = good[3..].chunks(7).rev().flatten();
    let falling: Vec<u8> = good[..3].iter().chain(records).copied().collect();
    let repaired = in_thread(1536, move || repair(&falling)).expect("a repair");
    // all records but the first are moved
    assert_eq!((repaired.bytes == good, repaired.lines.len()), (true, usize::from(u16::MAX) - 1));
}

#[test]
fn a_change_of_many_totals_takes_little() {
    let records = |step: u16| EpochMap::from_iter((1..20_000).map(|epoch| (epoch * step, 1)));
    let flags = [1, 2, 3].map(|step| StorageFlags::MultiEpochOwned(0, records(step), [7; 32]));
    let work = move || {
        let mut totals = Totals::from([([6; 32], 1, 1), ([8; 32], 1, 1)]);
        let [first, second, third] = &flags;
        let changes = [
            (None, Some(first)),
            (None, Some(second)),
            (Some(first), Some(third)),
            (Some(second), Some(first)),
        ];
        changes.map(|(old, new)| totals.replace(old, new).map(|()| totals.len()))
    };
    // two rows under other owners, and one for each epoch that some element has
    let rows = |steps: &[u32]| 2 + BTreeSet::from_iter(steps.iter().flat_map(|step| (1..20_000).map(move |n| n * step))).len();
    let expected = [&[1][..], &[1, 2], &[2, 3], &[1, 3]].map(rows);
    assert_eq!(in_thread(32, work), expected.map(Ok));
}
