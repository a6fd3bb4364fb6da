//! Repair of old flag bytes: every change, their order, and what comes back as it was.
mod both;
use both::ENOUGH;
use petasunok::Change::{self, *};
use petasunok::{Line, Repaired, StorageFlags, StorageFlagsError};

/// The repair of bytes, in more room than it needs.
fn repair(data: &[u8]) -> Result<Repaired, StorageFlagsError> {
    both::repair(data, (ENOUGH, ENOUGH, ENOUGH))
}

/// The bytes of unowned flags at base 5, and of the same owned ones; then how many bytes later the records of these stand.
fn both_kinds(kind: u8, records: &[u8]) -> [(Vec<u8>, usize); 2] {
    let unowned = [&[kind, 0, 5], records].concat();
    let owned = [[kind + 2].as_slice(), &[9; 32], &[0, 5], records].concat();
    [(unowned, 0), (owned, 32)]
}

/// Checks a repair at base 5, unowned and owned: of a kind and what stands behind the base, to a kind, records and lines. What comes out is
/// read, and a second repair changes nothing.
fn check(from: (u8, &[u8]), to: (u8, &[u8]), lines: &[(usize, Change)]) {
    for ((old, later), (new, _)) in both_kinds(from.0, from.1).into_iter().zip(both_kinds(to.0, to.1)) {
        let moved = |(offset, change): &(usize, Change)| Line {
            offset: if *change == KindChanged { 0 } else { offset + later },
            change: *change,
        };
        let lines = lines.iter().map(moved).collect();
        assert_eq!(repair(&old), Ok(Repaired { bytes: new.clone(), lines }), "{old:02x?}");
        assert!(StorageFlags::deserialize(&new).is_ok(), "{new:02x?}");
        unchanged(&new);
    }
}

/// Checks that bytes come back equal, and with no line.
fn unchanged(data: &[u8]) {
    let (bytes, lines) = (data.to_vec(), vec![]);
    assert_eq!(repair(data), Ok(Repaired { bytes, lines }), "{data:02x?}");
}

#[test]
fn canonical_bytes_come_back() {
    unchanged(&[]);
    for (kind, records) in [
        (0, &[][..]),
        (1, &[0, 7, 0xac, 2]),
        (1, &[0, 6, 0, 0, 7, 10, 0xff, 0xff, 0xff, 0xff, 0xff, 0xff, 0x0f]),
    ] {
        check((kind, records), (kind, records), &[]);
    }
}

#[test]
fn counts() {
    check((1, &[0, 7, 0x81, 0]), (1, &[0, 7, 1]), &[(3, ReEncoded)]);
    let ten = [0, 7, 0xff, 0xff, 0xff, 0xff, 0x8f, 0x80, 0x80, 0x80, 0x80, 0];
    check((1, &ten), (1, &[0, 7, 0xff, 0xff, 0xff, 0xff, 0x0f]), &[(3, ReEncoded)]);
    let large = [(0, KindChanged), (3, TooLarge)];
    check((1, &[0, 7, 0x80, 0x80, 0x80, 0x80, 0x10]), (0, &[]), &large);
    // the first bit that 64 do not hold, and nothing below it
    check(
        (1, &[0, 7, 0x80, 0x80, 0x80, 0x80, 0x80, 0x80, 0x80, 0x80, 0x80, 2]),
        (0, &[]),
        &large,
    );
    // an eleventh byte
    let cut = [(0, KindChanged), (3, TailCut)];
    check(
        (1, &[0, 7, 0x80, 0x80, 0x80, 0x80, 0x80, 0x80, 0x80, 0x80, 0x80, 0x80, 0]),
        (0, &[]),
        &cut,
    );
}

#[test]
fn epochs() {
    let lines = [(3, NotAboveBase), (6, NotAboveBase)];
    check((1, &[0, 5, 1, 0, 4, 1, 0, 6, 1]), (1, &[0, 6, 1]), &lines);
    check((1, &[0, 7, 1, 0, 7, 2, 0, 7, 3]), (1, &[0, 7, 3]), &[(3, Replaced), (6, Replaced)]);
    // 8 is above 7 and 6, which come behind it; the 9 that is replaced does not count
    let lines = [(3, Replaced), (9, Moved), (12, Moved)];
    check(
        (1, &[0, 9, 1, 0, 8, 2, 0, 7, 3, 0, 6, 4, 0, 9, 5]),
        (1, &[0, 6, 4, 0, 7, 3, 0, 8, 2, 0, 9, 5]),
        &lines,
    );
    // 8 comes behind 9, though 7 stands between them
    let lines = [(6, Moved), (9, Moved)];
    check((1, &[0, 9, 1, 0, 7, 2, 0, 8, 3]), (1, &[0, 7, 2, 0, 8, 3, 0, 9, 1]), &lines);
    check(
        (1, &[0, 9, 1, 0, 7, 0x82, 0]),
        (1, &[0, 7, 2, 0, 9, 1]),
        &[(6, ReEncoded), (6, Moved)],
    );
}

#[test]
fn a_dropped_record_has_the_first_line_that_fits() {
    let large = [0x80, 0x80, 0x80, 0x80, 0x10];
    let at_base = [&[0, 5], &large[..], &[0, 7, 1]].concat();
    check((1, &at_base), (1, &[0, 7, 1]), &[(3, TooLarge)]);
    let before_another = [&[0, 7], &large[..], &[0, 7, 1]].concat();
    check((1, &before_another), (1, &[0, 7, 1]), &[(3, TooLarge)]);
    check(
        (1, &[0, 5, 1, 0, 5, 2, 0, 7, 1]),
        (1, &[0, 7, 1]),
        &[(3, NotAboveBase), (6, NotAboveBase)],
    );
    // a later record that is dropped replaces nothing
    let before_dropped = [&[0, 7, 1, 0, 7], &large[..]].concat();
    check((1, &before_dropped), (1, &[0, 7, 1]), &[(6, TooLarge)]);
}

#[test]
fn tails() {
    for tail in [
        &[0][..],
        &[0, 8],
        &[0, 8, 0x80],
        &[0, 8, 0xff, 0xff],
        &[0, 8, 0x80, 0x80, 0x80, 0x80, 0x80, 0x80, 0x80, 0x80, 0x80, 0x80],
    ] {
        check((1, &[&[0, 7, 1], tail].concat()), (1, &[0, 7, 1]), &[(6, TailCut)]);
        check((1, tail), (0, &[]), &[(0, KindChanged), (3, TailCut)]);
        check((0, tail), (0, &[]), &[(3, TailCut)]);
    }
    // nothing behind the cut is looked at
    let cut = [&[0, 7, 1, 0, 8][..], &[0x80; 10], &[0, 7, 2]].concat();
    check((1, &cut), (1, &[0, 7, 1]), &[(6, TailCut)]);
}

#[test]
fn kinds() {
    check((1, &[]), (0, &[]), &[(0, KindChanged)]);
    check((1, &[0, 5, 1]), (0, &[]), &[(0, KindChanged), (3, NotAboveBase)]);
    unchanged(&[0, 0xff, 0xff]);
}

#[test]
fn refusals() {
    for kind in [4, 5, 128, 255] {
        assert_eq!(repair(&[kind, 0, 5]), Err(StorageFlagsError::DeserializeUnknownStorageFlagsType));
    }
    for kind in 0..4 {
        for length in 1..if kind < 2 { 3 } else { 35 } {
            let mut data = vec![0; length];
            data[0] = kind;
            assert_eq!(repair(&data), Err(StorageFlagsError::StorageFlagsWrongSize), "{data:02x?}");
        }
    }
}

#[test]
fn numbers_and_changes_match() {
    let words = [
        "re-encoded",
        "too large",
        "not above base",
        "replaced",
        "tail cut",
        "moved",
        "kind changed",
    ];
    for ((change, number), words) in Change::ALL.into_iter().zip(1..).zip(words) {
        assert_eq!((change.number(), change.to_string().as_str()), (number, words));
        assert_eq!(Change::from_number(number), Some(change));
    }
    assert_eq!((Change::from_number(0), Change::from_number(8)), (None, None));
}
