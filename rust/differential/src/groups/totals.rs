//! Changes of a table of totals.
use super::Visit;
use crate::generate::{numbers, totals};
use crate::question::{Change, Question};
use crate::random::Random;
use crate::totals::{self as examples, room_for};
use crate::values::*;

/// Totals at which something changes, but for those around the largest: what a count holds, and what it just does not.
const TOTALS: [u64; 9] = [1, 2, 3, 4, 0xffff_fffe, 0xffff_ffff, 0x1_0000_0000, 0x1_0000_0001, 0x8000_0000_0000_0000];

/// A row's owner, and owners beside it.
const OWNER: Id = [0x41; 32];
const BELOW: Id = [0x40; 32];
const ABOVE: Id = [0x42; 32];

/// Counts with totals; owners, kinds and presence; which rows go and which are made; faults in every order.
pub fn boundaries(visit: &mut Visit) {
    counts(visit);
    owners(visit);
    places(visit);
    faults(visit);
}

/// Every count with totals, taken, added, both, and at another epoch or owner.
fn counts(visit: &mut Visit) {
    let largest = numbers::COUNTS.map(|count| u64::MAX - u64::from(count));
    for total in TOTALS.into_iter().chain(numbers::COUNTS.map(u64::from)).chain(largest).filter(|total| *total > 0) {
        let rows = [(OWNER, 7, total)];
        for count in numbers::COUNTS {
            let flags = |owner, epoch, count| Flags::new(3, 5, owner, &[(epoch, count)]);
            let some = flags(OWNER, 7, count);
            visit(room_for(&rows, Some(&some), None, [1; 3]));
            visit(room_for(&rows, None, Some(&some), [1; 3]));
            for other in [flags(OWNER, 7, 5), flags(OWNER, 8, count), flags(ABOVE, 7, count)] {
                visit(room_for(&rows, Some(&other), Some(&some), [1; 3]));
                visit(room_for(&rows, Some(&some), Some(&other), [1; 3]));
            }
        }
    }
}

/// All pairs of owners with all kinds, each there or not, over a table that has both.
fn owners(visit: &mut Visit) {
    for (first, second) in numbers::OWNERS.into_iter().flat_map(|first| numbers::OWNERS.map(|second| (first, second))) {
        let mut rows: Vec<_> = [first, second, ZEROS].into_iter().flat_map(|owner| [(owner, 6, 3), (owner, 7, 30)]).collect();
        rows.sort_unstable();
        rows.dedup();
        for (old_kind, new_kind) in (0..4).flat_map(|old| (0..4).map(move |new| (old, new))) {
            let records = [(7, 30), (8, 4)];
            let old = Flags::new(old_kind, 5, first, &records[..usize::from(old_kind % 2)]);
            let new = Flags::new(new_kind, 5, second, &records[..2 * usize::from(new_kind % 2)]);
            for (old_present, new_present) in [(0, 0), (0, 1), (1, 0), (1, 1), (2, 255)] {
                let table = Rows::of(&[&rows[..], &[([0x5a; 32], 0x5a5a, 0x5a)]].concat());
                let (old, new) = (old.clone(), new.clone());
                visit(Question::TotalsReplace(Change { rows: rows.len(), table, old_present, old, new_present, new }));
            }
        }
    }
}

/// Which of four rows go, and at which epochs rows are made, under the same owner or one before or behind it; with one place behind what is
/// needed, exactly as much, and one short in each table in turn. At epoch 1 the count is 0, so that no row is made there.
fn places(visit: &mut Visit) {
    let rows = [(OWNER, 2, 1), (OWNER, 4, 2), (OWNER, 6, 3), (OWNER, 8, 4)];
    let chosen = |epochs: &[u16], which: usize| -> Vec<(u16, u32)> {
        let places = epochs.iter().enumerate().filter(|(place, _)| which >> place & 1 == 1);
        places.map(|(_, epoch)| (*epoch, u32::from(*epoch) / 2)).collect()
    };
    let mut short = 0;
    for (gone, made) in (0..16).flat_map(|gone| (1..128).map(move |made| (gone, made))) {
        let old = Flags::new(if gone == 0 { 2 } else { 3 }, 1, OWNER, &chosen(&[2, 4, 6, 8], gone));
        for owner in [BELOW, OWNER, ABOVE] {
            let new = Flags::new(3, 0, owner, &chosen(&[1, 2, 3, 4, 5, 8, 9], made));
            let need = examples::needed(&rows, Some(&old), Some(&new));
            visit(room_for(&rows, Some(&old), Some(&new), [need + 1; 3]));
            visit(room_for(&rows, Some(&old), Some(&new), [need; 3]));
            short = (short + 1) % 3;
            let mut lengths = [need; 3];
            lengths[short] -= 1;
            visit(room_for(&rows, Some(&old), Some(&new), lengths));
        }
    }
}

/// What may be wrong, in all ways together: with the table, with either flags, with a total that is too small or too large, with the room.
fn faults(visit: &mut Visit) {
    let tables = [
        &[(OWNER, 7, 10), (OWNER, 9, u64::MAX)][..],
        &[(OWNER, 7, 10), (OWNER, 9, 0)],
        &[(OWNER, 9, 10), (OWNER, 7, u64::MAX)],
        &[(OWNER, 7, 10), (OWNER, 7, u64::MAX)],
        &[(ABOVE, 7, 10), (OWNER, 9, u64::MAX)],
    ];
    let flags = |records: &[(u16, u32)]| Flags::new(3, 5, OWNER, records);
    let bad_kind = Flags::new(4, 5, OWNER, &[]);
    let past = Flags { head: petasunok_head { records: 2, ..flags(&[(7, 1)]).head }, ..flags(&[(7, 1)]) };
    let some = [flags(&[(7, 10)]), flags(&[(7, 11)]), flags(&[(8, 0), (9, 1)]), flags(&[(8, 3)]), flags(&[]), flags(&[(9, 1), (8, 1)])];
    let some: Vec<_> = some.into_iter().chain([bad_kind, past, Flags::new(0, 5, OWNER, &[(7, 1)])]).collect();
    let maybe: Vec<_> = [None].into_iter().chain(some.iter().map(Some)).collect();
    for (rows, lengths) in tables.into_iter().flat_map(|rows| [[2; 3], [4; 3], [1, 4, 4], [4, 1, 4], [4, 4, 1]].map(|room| (rows, room))) {
        for (old, new) in maybe.iter().flat_map(|old| maybe.iter().map(move |new| (old, new))) {
            visit(room_for(rows, *old, *new, lengths));
        }
    }
    for rows in [3, 4, 65_535, usize::MAX, 1 << 32] {
        let Question::TotalsReplace(change) = room_for(tables[0], None, None, [3; 3]) else { return };
        visit(Question::TotalsReplace(Change { rows, ..change }));
    }
}

/// A random change.
pub fn random(random: &mut Random, most: usize) -> Question {
    Question::TotalsReplace(totals::any(random, most))
}
