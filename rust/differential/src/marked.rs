//! Document 01's marked examples P1 to P14 and its boundaries for the runs, as questions.
use crate::expected::expected;
use crate::groups::Visit;
use crate::question::{Merge, Question, Reader, Reply, Split};
use crate::values::*;

/// Encodings of P1 to P9.
const READ: [&[u8]; 9] = [
    &[],
    &[0, 0, 5],
    &[0, 5],
    &[1, 0, 5],
    &[1, 0, 5, 0, 7, 0xac, 2],
    &[1, 0, 5, 0, 5, 1],
    &[1, 0, 5, 0, 7, 0x81, 0],
    &[1, 0, 5, 0, 7, 0x80],
    &[4],
];

/// Records and an amount to split, then to merge: P10, P11, P12, and the boundaries.
const SPLIT: [(&[(u16, u32)], u32); 13] = [
    (&[(7, 10), (9, 5)], 6),
    (&[(7, 10), (9, 5)], 20),
    (&[(7, 10), (9, 3)], 1),
    (&[(7, 4)], 1),
    (&[(7, 5)], 1),
    (&[(7, 10)], 4_294_967_292),
    (&[(7, 10)], 4_294_967_293),
    (&[(7, 1)], 4_294_967_293),
    (&[(7, 1)], 4_294_967_294),
    (&[(7, 1)], 4_294_967_295),
    (&[(7, u32::MAX)], 4_294_967_292),
    (&[(7, u32::MAX)], 4_294_967_295),
    (&[(7, 10), (9, u32::MAX)], 4_294_967_294),
];

/// Room for records.
fn room() -> Tables {
    Tables { epochs: vec![0x5a5a; 3], counts: vec![0x5a5a_5a5a; 3] }
}

/// Room for rows.
fn row_room() -> Rows {
    Rows { ids: vec![[0x5a; 32]; 4], epochs: vec![0x5a5a; 4], bytes: vec![0x5a5a_5a5a; 4] }
}

/// Unowned flags at base 5.
fn at_five(records: &[(u16, u32)]) -> Flags {
    Flags::new(u8::from(!records.is_empty()), 5, ZEROS, records)
}

/// Unowned incoming flags without records.
fn incoming(base: u16) -> Flags {
    Flags::new(0, base, ZEROS, &[])
}

/// All of them.
pub fn questions(visit: &mut Visit) {
    for src in READ {
        visit(Question::Read { reader: Reader::Any, src: src.to_vec(), lent: room() });
    }
    for (records, value) in SPLIT {
        split_and_merge(at_five(records), value, visit);
    }
    for (base, amount) in [(7, 50), (8, 0)] {
        let (ours, theirs) = (at_five(&[(7, 300)]), incoming(base));
        visit(Question::CombineAdded(Merge { present: None, ours, theirs, with: amount, strategy: 0, lent: room() }));
    }
    for version in [0, 1] {
        let (mut ours, rhs) = (Removal::basic(4), Removal::sectioned(&[(ZEROS, 3, 10)]));
        ours.rows = row_room();
        visit(Question::AddAssign { ours, rhs, version });
    }
    for length in [6, 7] {
        visit(Question::Serialize { flags: at_five(&[(7, 300)]), out: vec![0x5a; length] });
    }
}

/// A value split, and the merge of its sections.
fn split_and_merge(ours: Flags, value: u32, visit: &mut Visit) {
    let split = Question::SplitValue(Split { flags: ours.clone(), bytes: value, rows: row_room() });
    if let Reply::ValueSplit { answer, rows } = expected(&split).reply {
        let with = Removal { state: answer.removal, rows };
        visit(Question::CombineRemoved(Merge { present: None, ours, theirs: incoming(9), with, strategy: 0, lent: room() }));
    }
    visit(split);
}
