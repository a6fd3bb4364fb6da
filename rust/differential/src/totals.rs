//! Changes of totals that show each rule of document 02 (vii), with room that is ample, exact, or one place short in a table. These stand in
//! the list of stored answers whole.
use crate::generate::numbers;
use crate::groups::Visit;
use crate::question::{Change, Question};
use crate::totals_model;
use crate::values::*;

/// A row: whose it is, its epoch and its total.
type Row = (Id, u16, u64);

/// Flags at base 5: whose, and their records. A single record at epoch 5 stands for none.
type Given = Option<(Id, &'static [(u16, u32)])>;

/// Owners, the third of which differs from the second in the last byte only.
const NONE: Id = ZEROS;
const A: Id = [0x41; 32];
const A_NEXT: Id = numbers::one_byte(0x41, 31, 0x42);
const B: Id = [0x42; 32];

/// The largest total, and the largest count.
const MOST: u64 = u64::MAX;
const FULL: u32 = u32::MAX;

/// Tables, old flags and new ones.
const EXAMPLES: [(&[Row], Given, Given); 54] = [
    // one owner: totals that change, rows that go and are made, equal flags
    (&[(A, 7, 10), (A, 9, 5)], Some((A, &[(7, 10), (9, 5)])), Some((A, &[(7, 4), (8, 6)]))),
    (&[(A, 7, 110), (A, 9, 105)], Some((A, &[(7, 10), (9, 5)])), Some((A, &[(7, 4), (8, 6)]))),
    (&[(NONE, 9, 1), (A, 7, 110), (B, 7, 1)], Some((A, &[(7, 10)])), Some((A, &[(7, 20)]))),
    (&[(A, 7, 10), (A, 9, 5)], Some((A, &[(7, 10), (9, 5)])), Some((A, &[(7, 10), (9, 5)]))),
    (&[(A, 7, MOST)], Some((A, &[(7, FULL)])), Some((A, &[(7, FULL)]))),
    // two owners, also such as differ in the last byte only
    (&[(A, 7, 10), (B, 7, 1)], Some((A, &[(7, 10)])), Some((B, &[(7, 10)]))),
    (&[(A, 7, 1), (B, 7, 10)], Some((B, &[(7, 10)])), Some((A, &[(7, 10)]))),
    (&[(A, 7, 10), (A_NEXT, 7, 3)], Some((A, &[(7, 4)])), Some((A_NEXT, &[(7, 4)]))),
    (&[(A, 7, 10)], Some((A, &[(7, 4)])), Some((A_NEXT, &[(7, 4)]))),
    // one unowned, and both
    (&[(NONE, 7, 10), (A, 7, 1)], Some((NONE, &[(7, 10)])), Some((A, &[(7, 10)]))),
    (&[(NONE, 7, 1), (A, 7, 10)], Some((A, &[(7, 10)])), Some((NONE, &[(7, 10)]))),
    (&[(NONE, 7, 300)], Some((NONE, &[(7, 300)])), Some((NONE, &[(7, 350)]))),
    // either absent, and both
    (&[], None, Some((A, &[(7, 10), (9, 5)]))),
    (&[(A, 7, 10)], None, Some((NONE, &[(7, 3)]))),
    (&[(A, 7, 10), (A, 9, 5)], Some((A, &[(7, 10), (9, 5)])), None),
    (&[(A, 7, 10), (A, 9, 5)], Some((A, &[(7, 4), (9, 4)])), None),
    (&[], None, None),
    (&[(A, 7, 10), (A, 9, 5), (B, 0, MOST)], None, None),
    // flags without records
    (&[(A, 5, 1)], Some((NONE, &[])), Some((A, &[]))),
    (&[(A, 5, 1)], Some((A, &[])), Some((NONE, &[]))),
    (&[(A, 7, 10)], Some((A, &[(7, 10)])), Some((A, &[]))),
    (&[], None, Some((A, &[]))),
    // counts of 0, where there is a row and where there is none
    (&[], None, Some((NONE, &[(7, 0)]))),
    (&[(NONE, 7, 1)], None, Some((NONE, &[(6, 0), (7, 0), (8, 0)]))),
    (&[], Some((NONE, &[(7, 0)])), None),
    (&[(NONE, 7, 1)], Some((NONE, &[(6, 0), (7, 1), (8, 0)])), Some((NONE, &[(6, 0), (7, 0), (9, 0)]))),
    // rows that go at the front, in the middle and at the end
    (&[(A, 6, 1), (A, 7, 2), (A, 8, 3), (A, 9, 4)], Some((A, &[(6, 1)])), None),
    (&[(A, 6, 1), (A, 7, 2), (A, 8, 3), (A, 9, 4)], Some((A, &[(7, 2), (8, 3)])), None),
    (&[(A, 6, 1), (A, 7, 2), (A, 8, 3), (A, 9, 4)], Some((A, &[(6, 1), (8, 3)])), None),
    (&[(A, 6, 1), (A, 7, 2), (A, 8, 3), (A, 9, 4)], Some((A, &[(9, 4)])), None),
    // rows that are made at the front, in the middle and at the end
    (&[(A, 7, 3), (A, 9, 5)], None, Some((NONE, &[(6, 7)]))),
    (&[(A, 7, 3), (A, 9, 5)], None, Some((A, &[(6, 7), (8, 8), (10, 9)]))),
    (&[(A, 7, 3), (A, 9, 5)], None, Some((B, &[(6, 7), (65_535, 8)]))),
    // as many go as are made, fewer, and more
    (&[(A, 6, 1), (A, 7, 2), (B, 6, 1)], Some((A, &[(6, 1), (7, 2)])), Some((B, &[(7, 1), (8, 2)]))),
    (&[(A, 6, 1), (B, 6, 1)], Some((B, &[(6, 1)])), Some((NONE, &[(6, 1), (7, 2)]))),
    (&[(A, 6, 1), (A, 7, 2), (A, 8, 3), (B, 6, 1)], Some((A, &[(6, 1), (7, 2), (8, 3)])), Some((B, &[(7, 4)]))),
    // the largest total, and 6 behind it, but not where enough is taken before at the same pair
    (&[(NONE, 7, MOST - FULL as u64)], None, Some((NONE, &[(7, FULL)]))),
    (&[(NONE, 7, MOST - FULL as u64 + 1)], None, Some((NONE, &[(7, FULL)]))),
    (&[(NONE, 7, MOST)], None, Some((NONE, &[(7, 0)]))),
    (&[(NONE, 7, MOST)], None, Some((NONE, &[(7, 1)]))),
    (&[(NONE, 7, MOST)], Some((NONE, &[(7, 5)])), Some((NONE, &[(7, 5)]))),
    (&[(NONE, 7, MOST)], Some((NONE, &[(7, 5)])), Some((NONE, &[(7, 6)]))),
    (&[(NONE, 7, 9), (A, 7, MOST)], Some((NONE, &[(7, 5)])), Some((A, &[(7, 5)]))),
    (&[(NONE, 6, 9), (NONE, 7, MOST)], Some((NONE, &[(6, 5)])), Some((NONE, &[(7, 5)]))),
    // 14: one short, no row, another owner's or epoch's row, the last record; before 6
    (&[(NONE, 7, 4)], Some((NONE, &[(7, 5)])), None),
    (&[], Some((NONE, &[(7, 1)])), None),
    (&[(NONE, 7, 9), (A_NEXT, 7, 9)], Some((A, &[(7, 1)])), None),
    (&[(NONE, 6, 9), (NONE, 8, 9)], Some((NONE, &[(7, 1)])), None),
    (&[(NONE, 6, 9), (NONE, 7, 9), (NONE, 8, 9)], Some((NONE, &[(6, 9), (7, 8), (8, 10)])), None),
    (&[(NONE, 7, 4)], Some((NONE, &[(7, 5)])), Some((NONE, &[(7, 5)]))),
    (&[(A, 7, 1), (A, 9, MOST)], Some((A, &[(7, 2)])), Some((A, &[(8, 1), (9, 1)]))),
    // 6 before 10, and 11 before 14 and 6
    (&[(A, 9, MOST)], None, Some((A, &[(8, 1), (9, 1)]))),
    (&[(A, 7, 1), (A, 7, 1)], Some((A, &[(7, 2)])), Some((A, &[(8, 1)]))),
    (&[(A, 7, 1), (A, 9, MOST)], Some((A, &[(7, 2)])), Some((A, &[(9, 1), (8, 1)]))),
];

/// Tables that are not proper, beside that of the examples.
const BAD: [&[Row]; 5] =
    [&[(A, 7, 1), (A, 6, 1)], &[(B, 7, 1), (A, 8, 1)], &[(A_NEXT, 7, 1), (A, 8, 1)], &[(A, 7, 0)], &[(A, 7, 1), (A, 8, 0)]];

/// Examples that need a row more, of which each table is lent one place short too.
const SHORT: [usize; 4] = [12, 13, 31, 34];

/// All of them, with a place behind what is needed in each table, and without.
pub fn questions(visit: &mut Visit) {
    for (place, (rows, old, new)) in EXAMPLES.into_iter().enumerate() {
        let (old, new) = (old.map(flags), new.map(flags));
        let need = needed(rows, old.as_ref(), new.as_ref());
        visit(room_for(rows, old.as_ref(), new.as_ref(), [need + 1; 3]));
        visit(room_for(rows, old.as_ref(), new.as_ref(), [need; 3]));
        for short in (0..3).filter(|_| SHORT.contains(&place)) {
            let mut lengths = [need; 3];
            lengths[short] -= 1;
            visit(room_for(rows, old.as_ref(), new.as_ref(), lengths));
        }
    }
    let some = flags((A, &[(7, 1)]));
    for rows in BAD {
        visit(room_for(rows, None, None, [rows.len(); 3]));
        visit(room_for(rows, Some(&some), Some(&some), [rows.len() + 1; 3]));
    }
    for lengths in [[1, 2, 2], [2, 1, 2], [2, 2, 1]] {
        visit(room_for(&[(A, 7, 1), (A, 8, 1)], Some(&some), None, lengths));
    }
    for bad in [&[][..], &[(5, 1)], &[(8, 1), (7, 1)], &[(7, 1), (7, 1)]] {
        let bad = Flags::new(3, 5, A, bad);
        visit(room_for(&[(A, 7, 1)], Some(&bad), None, [2; 3]));
        visit(room_for(&[(A, 7, 1)], None, Some(&bad), [2; 3]));
    }
}

/// Flags at base 5, of a kind that has an owner unless it is zeros, and records if there are any.
fn flags((owner, records): (Id, &[(u16, u32)])) -> Flags {
    Flags::new(if owner == NONE { 0 } else { 2 } + u8::from(!records.is_empty()), 5, owner, records)
}

/// A change of a table whose slices have such lengths; behind its rows is junk that no answer has. Absent flags are junk too.
pub fn room_for(rows: &[Row], old: Option<&Flags>, new: Option<&Flags>, lengths: [usize; 3]) -> Question {
    let mut table = Rows::of(rows);
    table.ids.resize(lengths[0], [0x5a; 32]);
    table.epochs.resize(lengths[1], 0x5a5a);
    table.bytes.resize(lengths[2], 0x5a5a_5a5a_5a5a_5a5a);
    let junk = Flags { head: petasunok_head { kind: 3, base: 9, owner: B, records: 9 }, tables: Tables::default() };
    Question::TotalsReplace(Change {
        rows: rows.len(),
        table,
        old_present: old.is_some().into(),
        old: old.unwrap_or(&junk).clone(),
        new_present: new.is_some().into(),
        new: new.unwrap_or(&junk).clone(),
    })
}

/// How many places a change needs in each slice, at least those of the rows that stand there.
pub fn needed(rows: &[Row], old: Option<&Flags>, new: Option<&Flags>) -> usize {
    let Question::TotalsReplace(change) = room_for(rows, old, new, [rows.len(); 3]) else { return 0 };
    totals_model::replace(&change).map_or(0, |after| after.room()).max(rows.len())
}
