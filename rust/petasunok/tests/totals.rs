//! Totals per owner and epoch: what a change does to the rows, each refusal and their order, over the owned calls and the lent ones.
mod both;
use both::ENOUGH;
use petasunok::lent::{self, Flags, Head, Total, TotalsMut};
use petasunok::StorageFlags::{self, *};
use petasunok::StorageFlagsError::{self, *};
use petasunok::{EpochMap, Identifier, Totals};

/// Owners, the second of which differs from the first in the last byte only.
const A: Identifier = [0x41; 32];
const A_NEXT: Identifier = {
    let mut owner = A;
    owner[31] += 1;
    owner
};
const B: Identifier = [0x42; 32];
const NONE: Identifier = [0; 32];

/// The largest total.
const MOST: u64 = u64::MAX;

/// A row: owner, epoch and total.
type Row = (Identifier, u16, u64);

/// Flags at base 5, owned unless the owner is zeros.
fn flags<const N: usize>(owner: Identifier, records: [(u16, u32); N]) -> StorageFlags {
    match owner {
        NONE => MultiEpoch(5, records.into()),
        _ => MultiEpochOwned(5, records.into(), owner),
    }
}

/// Totals of rows in the order given.
fn totals(rows: &[Row]) -> Totals {
    let (mut owners, mut epochs, mut totals) = (vec![], vec![], vec![]);
    for (owner, epoch, total) in rows {
        owners.push(*owner);
        epochs.push(*epoch);
        totals.push(*total);
    }
    Totals::from_tables(owners, epochs, totals).unwrap()
}

/// What a change makes of rows, with room.
fn replaced(rows: &[Row], old: Option<&StorageFlags>, new: Option<&StorageFlags>) -> Result<Totals, StorageFlagsError> {
    both::totals_replace(&totals(rows), old, new, [ENOUGH; 3])
}

/// Checks a change, and that changing back gives the rows as they were.
fn check(rows: &[Row], old: Option<&StorageFlags>, new: Option<&StorageFlags>, after: &[Row]) {
    assert_eq!(replaced(rows, old, new), Ok(totals(after)), "{old:?} to {new:?}");
    assert_eq!(replaced(after, new, old), Ok(totals(rows)), "{new:?} back to {old:?}");
    let most = rows.len().max(after.len());
    let just = both::totals_replace_structs(&totals(rows), old, new, ENOUGH, [most; 3]);
    assert_eq!(just, Ok(totals(after)), "{old:?} to {new:?} with just enough to work in");
}

/// Checks a refusal, also where there is no room behind the rows, and over structs nothing to work in.
fn refused(rows: &[Row], old: Option<&StorageFlags>, new: Option<&StorageFlags>, refusal: StorageFlagsError) {
    assert_eq!(replaced(rows, old, new), Err(refusal), "{old:?} to {new:?}");
    let tight = both::totals_replace(&totals(rows), old, new, [rows.len(); 3]);
    assert_eq!(tight, Err(refusal), "{old:?} to {new:?} without room");
    let tight = both::totals_replace_structs(&totals(rows), old, new, rows.len(), [0; 3]);
    assert_eq!(tight, Err(refusal), "{old:?} to {new:?} with nothing to work in");
}

#[test]
fn one_owner() {
    for owner in [NONE, A] {
        let (old, new) = (flags(owner, [(7, 10), (9, 5)]), flags(owner, [(7, 4), (8, 6)]));
        check(
            &[(owner, 7, 10), (owner, 9, 5)],
            Some(&old),
            Some(&new),
            &[(owner, 7, 4), (owner, 8, 6)],
        );
        let (before, after) = (
            [(owner, 7, 110), (owner, 9, 105), (B, 7, 1)],
            [(owner, 7, 104), (owner, 8, 6), (owner, 9, 100), (B, 7, 1)],
        );
        check(&before, Some(&old), Some(&new), &after);
        // equal flags change nothing, also at the largest total
        check(&before, Some(&old), Some(&old), &before);
        let most = flags(owner, [(7, u32::MAX)]);
        check(&[(owner, 7, MOST)], Some(&most), Some(&most), &[(owner, 7, MOST)]);
    }
}

#[test]
fn two_owners() {
    for (first, second) in [(A, B), (NONE, A), (A, A_NEXT)] {
        let (old, new) = (flags(first, [(7, 10)]), flags(second, [(7, 10)]));
        check(&[(first, 7, 10), (second, 7, 1)], Some(&old), Some(&new), &[(second, 7, 11)]);
        check(&[(first, 7, 12)], Some(&old), Some(&new), &[(first, 7, 2), (second, 7, 10)]);
        check(&[(first, 7, 1), (second, 7, 10)], Some(&new), Some(&old), &[(first, 7, 11)]);
    }
    // an owner of 32 zeros is counted like none
    let zeros = MultiEpochOwned(5, [(7, 3)].into(), NONE);
    check(&[(NONE, 7, 10)], Some(&flags(NONE, [(7, 10)])), Some(&zeros), &[(NONE, 7, 3)]);
}

#[test]
fn absent_flags() {
    let some = flags(A, [(7, 10), (9, 5)]);
    check(&[], None, Some(&some), &[(A, 7, 10), (A, 9, 5)]);
    check(&[(A, 7, 1), (A, 8, 2)], None, Some(&some), &[(A, 7, 11), (A, 8, 2), (A, 9, 5)]);
    check(&[], None, None, &[]);
    let rows = [(NONE, 0, 1), (A, 7, MOST), (B, 65535, 3)];
    check(&rows, None, None, &rows);
}

/// Flags without records, and records of 0, name no row.
#[test]
fn nothing_is_counted() {
    let rows = [(A, 5, 1), (A, 7, 2)];
    for (first, second) in [
        (SingleEpoch(5), SingleEpochOwned(5, A)),
        (SingleEpoch(5), flags(A, [(6, 0), (7, 0), (8, 0)])),
    ] {
        check(&rows, Some(&first), Some(&second), &rows);
        check(&rows, None, Some(&second), &rows);
        check(&[], Some(&first), Some(&second), &[]);
    }
    check(&rows, Some(&SingleEpoch(5)), Some(&flags(A, [(7, 3)])), &[(A, 5, 1), (A, 7, 5)]);
}

/// Rows go and are made at the front, in the middle and at the end; some of these at once.
#[test]
fn places() {
    let rows = [(A, 6, 1), (A, 7, 2), (A, 8, 3), (A, 9, 4)];
    for gone in [&[0][..], &[1], &[3], &[1, 2], &[0, 2], &[0, 1, 2, 3]] {
        let records: EpochMap = gone.iter().map(|place| (rows[*place].1, rows[*place].2 as u32)).collect();
        let left: Vec<Row> = rows.into_iter().filter(|row| records.get(&row.1).is_none()).collect();
        check(&rows, Some(&MultiEpochOwned(5, records, A)), None, &left);
    }
    let beside = flags(B, [(6, 1), (65535, 2)]);
    check(&[(A, 6, 1)], None, Some(&beside), &[(A, 6, 1), (B, 6, 1), (B, 65535, 2)]);
    check(
        &[(A, 6, 1), (A, 7, 2), (B, 9, 1)],
        Some(&flags(A, [(6, 1), (7, 2)])),
        Some(&flags(B, [(8, 5), (10, 6)])),
        &[(B, 8, 5), (B, 9, 1), (B, 10, 6)],
    );
}

#[test]
fn the_largest_total() {
    let most = flags(A, [(7, u32::MAX)]);
    check(&[(A, 7, MOST - u64::from(u32::MAX))], None, Some(&most), &[(A, 7, MOST)]);
    refused(&[(A, 7, MOST - u64::from(u32::MAX) + 1)], None, Some(&most), StorageFlagsOverflow);
    // what is taken first counts, but only at the same owner and epoch
    let (five, six) = (flags(A, [(7, 5)]), flags(A, [(7, 6)]));
    check(&[(A, 7, MOST)], Some(&five), Some(&five), &[(A, 7, MOST)]);
    refused(&[(A, 7, MOST)], Some(&five), Some(&six), StorageFlagsOverflow);
    refused(
        &[(NONE, 7, 9), (A, 7, MOST)],
        Some(&flags(NONE, [(7, 6)])),
        Some(&six),
        StorageFlagsOverflow,
    );
    refused(
        &[(A, 7, MOST), (A, 8, 9)],
        Some(&flags(A, [(8, 6)])),
        Some(&six),
        StorageFlagsOverflow,
    );
}

#[test]
fn totals_that_do_not_match() {
    for rows in [&[(A, 7, 4)][..], &[], &[(A_NEXT, 7, 9)], &[(NONE, 7, 9), (A, 6, 9), (A, 8, 9)]] {
        refused(rows, Some(&flags(A, [(7, 5)])), None, IndexMismatch);
        refused(rows, Some(&flags(A, [(7, 5)])), Some(&flags(A, [(7, 5)])), IndexMismatch);
    }
    let last = flags(A, [(6, 9), (7, 8), (8, 10)]);
    refused(&[(A, 6, 9), (A, 7, 9), (A, 8, 9)], Some(&last), None, IndexMismatch);
}

#[test]
fn totals_that_are_not_proper() {
    let fine = flags(A, [(7, 1)]);
    for rows in [
        &[(A, 7, 1), (A, 7, 1)][..],
        &[(A, 7, 1), (A, 6, 1)],
        &[(B, 7, 1), (A, 8, 1)],
        &[(A_NEXT, 7, 1), (A, 8, 1)],
        &[(A, 7, 0)],
        &[(A, 7, 0), (A, 8, 1)],
        &[(A, 7, 1), (A, 8, 0)],
    ] {
        for (old, new) in [(None, None), (Some(&fine), None), (None, Some(&fine)), (Some(&fine), Some(&fine))] {
            refused(rows, old, new, BadTable);
        }
    }
}

/// 11 before 14, 14 before 6, and 6 before 10: `refused` tries each also without room for the new row.
#[test]
fn order() {
    let (two, bad) = (flags(A, [(7, 2)]), MultiEpoch(5, EpochMap::new()));
    refused(&[(A, 7, 1)], Some(&two), Some(&bad), BadTable);
    refused(&[(A, 7, 1), (A, 7, 1)], Some(&two), None, BadTable);
    refused(&[(A, 7, MOST), (A, 8, 0)], None, Some(&two), BadTable);
    let new = flags(A, [(8, 1), (9, 1)]);
    refused(&[(A, 7, 1), (A, 9, MOST)], Some(&two), Some(&new), IndexMismatch);
    refused(&[(A, 9, MOST)], None, Some(&new), StorageFlagsOverflow);
}

/// What only lent values can say: more rows than a slice has, and a kind that does not exist, of flags that are there.
#[test]
fn bad_lent_values() {
    let call = |rows: usize, lengths: [usize; 3], old: Option<Flags>, new: Option<Flags>| {
        let (mut owners, mut epochs, mut totals) = ([A; 2], [7, 8], [1, 2]);
        let table = TotalsMut {
            owners: &mut owners[..lengths[0]],
            epochs: &mut epochs[..lengths[1]],
            totals: &mut totals[..lengths[2]],
        };
        let answer = lent::totals_replace(rows, table, old, new);
        assert_eq!((owners, epochs, totals), ([A; 2], [7, 8], [1, 2]));
        answer
    };
    assert_eq!(call(2, [2; 3], None, None), Ok(2));
    for lengths in [[1, 2, 2], [2, 1, 2], [2, 2, 1]] {
        assert_eq!(call(2, lengths, None, None), Err(BadTable), "{lengths:?}");
        assert_eq!(call(1, lengths, None, None), Ok(1), "{lengths:?}");
    }
    assert_eq!(call(3, [2; 3], None, None), Err(BadTable));
    assert_eq!(call(usize::MAX, [2; 3], None, None), Err(BadTable));
    for (kind, records) in [(4, 0), (255, 0), (1, 1), (0, 1), (3, usize::MAX)] {
        let bad = Flags::of(Head {
            kind,
            records,
            ..Head::default()
        });
        assert_eq!(call(2, [2; 3], Some(bad), None), Err(BadTable), "{kind}");
        assert_eq!(call(2, [2; 3], None, Some(bad)), Err(BadTable), "{kind}");
    }
}

/// The same over structs: 11 comes before a work area is looked at.
#[test]
fn bad_lent_values_over_structs() {
    let call = |rows: usize, room: usize, work: usize, old: Option<Flags>| {
        let before = [7, 8].map(|epoch| Total { owner: A, epoch, total: 1 });
        let (mut table, mut owners, mut epochs, mut totals) = (before, [B; 3], [9; 3], [9; 3]);
        let work = TotalsMut {
            owners: &mut owners[..work],
            epochs: &mut epochs[..work],
            totals: &mut totals[..work],
        };
        let answer = lent::totals_replace_structs(rows, &mut table[..room], work, old, None);
        assert_eq!(table, before);
        assert!(answer.is_ok() || (owners, epochs, totals) == ([B; 3], [9; 3], [9; 3]));
        answer
    };
    let bad = |kind, records| {
        Flags::of(Head {
            kind,
            records,
            ..Head::default()
        })
    };
    for work in [0, 1, 2, 3] {
        for rows in [2, 3, usize::MAX] {
            assert_eq!(call(rows, 1, work, None), Err(BadTable), "{rows}");
        }
        for (kind, records) in [(4, 0), (255, 0), (1, 1), (0, 1), (3, usize::MAX)] {
            assert_eq!(call(2, 2, work, Some(bad(kind, records))), Err(BadTable), "{kind}");
        }
        assert_eq!(call(2, 2, work, None), if work < 2 { Err(NoRoom) } else { Ok(2) });
        assert_eq!(call(0, 2, work, None), Ok(0));
    }
}

#[test]
fn owner_bytes_of_unowned_flags_are_not_read() {
    let flags = |owner, counts| Flags {
        head: Head {
            kind: Head::MULTI_EPOCH,
            base: 5,
            owner,
            records: 1,
        },
        epochs: &[7],
        counts,
    };
    let (mut owners, mut epochs, mut totals) = ([NONE, A], [7, 7], [9, 9]);
    let table = TotalsMut {
        owners: &mut owners,
        epochs: &mut epochs,
        totals: &mut totals,
    };
    assert_eq!(lent::totals_replace(2, table, Some(flags(A, &[4])), Some(flags(B, &[3]))), Ok(2));
    assert_eq!((owners, epochs, totals), ([NONE, A], [7, 7], [8, 9]));
}

/// Changes of two elements give the same totals in either order, and these are what the elements count.
#[test]
fn either_order() {
    let (first, second) = (flags(A, [(6, 1), (7, 2)]), flags(A, [(7, 3), (8, 4)]));
    let (third, fourth) = (flags(A, [(7, 5)]), flags(B, [(7, 6), (8, 0)]));
    let mut start = Totals::new();
    start.replace(None, Some(&first)).unwrap();
    start.replace(None, Some(&third)).unwrap();
    let changes = [(Some(&first), Some(&second)), (Some(&third), Some(&fourth))];
    let after = |order: [usize; 2]| {
        let mut totals = start.clone();
        for (old, new) in order.map(|place| changes[place]) {
            totals.replace(old, new).unwrap();
        }
        totals
    };
    assert_eq!(after([0, 1]), after([1, 0]));
    assert_eq!(after([0, 1]), totals(&[(A, 7, 3), (A, 8, 4), (B, 7, 6)]));
}
