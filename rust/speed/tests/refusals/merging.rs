use super::{ask, ask_at_random, short, tables};
use differential::generate::{flags, lent, numbers};
use differential::values::{Flags, Tables};
use petasunok::MergingOwnersStrategy::{self, *};
use speed::tasks::given;
use std::collections::BTreeSet;

/// What one pass may meet only behind a record that has no room.
const LATER: [u32; 1] = [6];

/// Asks all programs to merge.
fn merge(ours: &Flags, theirs: &Flags, added_bytes: u32, strategy: MergingOwnersStrategy, tables: &Tables) -> u32 {
    ask(tables, &LATER, |program, lent| {
        let (epochs, counts) = (&mut lent.epochs, &mut lent.counts);
        (program.merge)(given(ours), given(theirs), added_bytes, strategy, epochs, counts)
    })
}

/// How many records the answer has, if there is one.
fn needed(ours: &Flags, theirs: &Flags) -> usize {
    let mut epochs: BTreeSet<u16> = ours.records().chain(theirs.records()).map(|record| record.0).collect();
    if ours.head.base < theirs.head.base {
        epochs.insert(theirs.head.base);
    }
    epochs.len()
}

/// Merges with ample and exact room, whose number is known, and with less room.
fn expect(number: u32, ours: &Flags, theirs: &Flags, added_bytes: u32, strategy: MergingOwnersStrategy) {
    let needed = needed(ours, theirs);
    for room in [needed, needed + 1, needed + 9] {
        assert_eq!(merge(ours, theirs, added_bytes, strategy, &tables(room)), number, "{ours:?} {theirs:?}, room for {room}");
    }
    for room in 0..needed {
        let number = if number == 0 { 10 } else { number };
        for lent in short(room, needed) {
            assert_eq!(merge(ours, theirs, added_bytes, strategy, &lent), number, "{ours:?} {theirs:?}, room for {room}");
        }
    }
}

const ALL: [MergingOwnersStrategy; 3] = [RaiseIssue, UseOurs, UseTheirs];

#[test]
fn bases_and_owners() {
    let kinds = [(0, 2, [].as_slice()), (1, 3, [(10, 4), (20, 5)].as_slice())];
    for (plain, owned, records) in kinds {
        for strategy in ALL {
            for their_base in [4, 5, 6, 9, 15] {
                let lower = if their_base < 5 { 4 } else { 0 };
                let their_records: Vec<(u16, u32)> = records.iter().map(|record| (record.0 + 10, record.1)).collect();
                let of = |kind, base, owner: u8, records| Flags::new(kind, base, [owner; 32], records);
                let ours = [of(plain, 5, 0, records), of(owned, 5, 1, records)];
                expect(lower, &ours[0], &of(plain, their_base, 0, &their_records), 7, strategy);
                expect(lower, &ours[0], &of(owned, their_base, 1, &their_records), 7, strategy);
                expect(lower, &ours[1], &of(plain, their_base, 0, &their_records), 7, strategy);
                expect(lower, &ours[1], &of(owned, their_base, 1, &their_records), 7, strategy);
                let differ = if lower == 0 && strategy == RaiseIssue { 5 } else { lower };
                expect(differ, &ours[1], &of(owned, their_base, 2, &their_records), 7, strategy);
            }
        }
    }
}

#[test]
fn amounts() {
    let theirs = Flags::new(1, 10, [0; 32], &[(12, u32::MAX), (20, 1)]);
    for (number, count, added) in [(0, 5, u32::MAX - 5), (6, 6, u32::MAX - 5), (6, u32::MAX, 1), (0, u32::MAX, 0), (0, 0, u32::MAX)] {
        for below in [[].as_slice(), &[(6, 1)], &[(6, 1), (7, 2), (8, 3)]] {
            for above in [[].as_slice(), &[(11, 1)], &[(12, 1), (13, 2), (30, 3)]] {
                let records = [below, &[(10, count)], above].concat();
                expect(number, &Flags::new(1, 5, [0; 32], &records), &theirs, added, RaiseIssue);
                // at equal bases the amount is not read
                let theirs = Flags::new(1, 5, [0; 32], &[(10, count)]);
                expect(0, &Flags::new(1, 5, [0; 32], &records), &theirs, added, RaiseIssue);
            }
        }
    }
}

#[test]
fn not_proper() {
    let good = Flags::new(1, 5, [0; 32], &[(10, 1), (11, 2)]);
    let bad = [
        Flags::new(1, 5, [0; 32], &[]),
        Flags::new(0, 5, [0; 32], &[(10, 1)]),
        Flags::new(4, 5, [0; 32], &[]),
        Flags::new(5, 5, [0; 32], &[(10, 1)]),
        Flags::new(1, 5, [0; 32], &[(5, 1)]),
        Flags::new(1, 5, [0; 32], &[(4, 1), (6, 1)]),
        Flags::new(1, 5, [0; 32], &[(6, 1), (6, 1)]),
        Flags::new(3, 5, [0; 32], &[(6, 1), (8, 1), (7, 1)]),
    ];
    for bad in &bad {
        expect(11, &good, bad, 1, RaiseIssue);
        expect(11, bad, &good, 1, RaiseIssue);
    }
    for records in [3, usize::MAX] {
        let mut long = good.clone();
        long.head.records = records;
        expect(11, &good, &long, 1, RaiseIssue);
        expect(11, &long, &good, 1, RaiseIssue);
    }
}

#[test]
fn random_flags() {
    ask_at_random(2, &[0, 4, 5, 6, 10, 11], |random| {
        let ours = flags::proper(random, 12);
        let theirs = flags::incoming(random, &ours, 12);
        let tables = lent::tables(random, needed(&ours, &theirs));
        let (ours, theirs) = (flags::changed(random, ours), flags::changed(random, theirs));
        merge(&ours, &theirs, numbers::count(random), random.pick(&ALL), &tables)
    });
}
