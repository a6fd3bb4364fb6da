//! Every boundary of counts and epochs, with a few questions for each. These stand in the list of stored answers whole.
use crate::convert;
use crate::generate::numbers::{COUNTS, EPOCHS, OWNERS};
use crate::groups::Visit;
use crate::question::{Both, Merge, Question, READERS};
use crate::values::*;

/// All of them.
pub fn questions(visit: &mut Visit) {
    for count in COUNTS {
        for flags in at_seven(count) {
            written(&flags, visit);
            added(&flags, count, visit);
            removed(&flags, count, visit);
        }
        sums(count, visit);
    }
    for epoch in EPOCHS {
        for base in [0, epoch.wrapping_sub(1), epoch, epoch.wrapping_add(1)] {
            written(&Flags::new(1, base, ZEROS, &[(epoch, 300)]), visit);
        }
        written(&Flags::new(0, epoch, ZEROS, &[]), visit);
        written(&Flags::new(2, epoch, OWNERS[4], &[]), visit);
    }
}

/// Flags with so many bytes at 7, unowned and owned.
fn at_seven(count: u32) -> [Flags; 2] {
    [Flags::new(1, 5, ZEROS, &[(7, count)]), Flags::new(3, 5, OWNERS[1], &[(6, 3), (7, count)])]
}

/// Room for records.
pub fn room(length: usize) -> Tables {
    Tables { epochs: vec![0x5a5a; length], counts: vec![0x5a5a_5a5a; length] }
}

/// Flags written with too few, enough and more than enough bytes, and read by their own reader and the one for all.
fn written(flags: &Flags, visit: &mut Visit) {
    visit(Question::SerializedSize { flags: flags.clone() });
    let mut src = convert::start(flags);
    for (epoch, count) in flags.records() {
        src.extend(convert::record(epoch, &convert::varint(count)));
    }
    for length in [src.len() - 1, src.len(), src.len() + 1] {
        visit(Question::Serialize { flags: flags.clone(), out: vec![0x5a; length] });
    }
    for reader in [READERS[0], READERS[usize::from(flags.head.kind) + 1]] {
        visit(Question::Read { reader, src: src.clone(), lent: room(flags.head.records + 1) });
    }
}

/// Amounts up to and past the limit of the record at 7.
fn added(flags: &Flags, count: u32, visit: &mut Visit) {
    for with in [0, 1, u32::MAX - count, (u32::MAX - count).wrapping_add(1)] {
        let (ours, theirs) = (flags.clone(), Flags::new(0, 7, ZEROS, &[]));
        visit(Question::CombineAdded(Merge { present: None, ours, theirs, with, strategy: 0, lent: room(3) }));
    }
}

/// Amounts around what the record at 7 holds.
fn around(count: u32) -> [u32; 5] {
    [count.wrapping_sub(4), count.wrapping_sub(3), count.wrapping_sub(2), count, count.wrapping_add(1)]
}

/// Sections around what the record at 7 holds.
fn removed(flags: &Flags, count: u32, visit: &mut Visit) {
    for bytes in around(count) {
        let (ours, theirs) = (flags.clone(), Flags::new(0, 9, ZEROS, &[]));
        let with = Removal::sectioned(&[(flags.identifier(), 7, bytes)]);
        visit(Question::CombineRemoved(Merge { present: None, ours, theirs, with, strategy: 0, lent: room(3) }));
    }
}

/// Splits around what the record at 7 holds, of the key a byte more than of the value.
pub fn splits(visit: &mut dyn FnMut(Both)) {
    let rows = Rows { ids: vec![[0x5a; 32]; 4], epochs: vec![0x5a5a; 4], bytes: vec![0x5a5a_5a5a; 4] };
    for count in COUNTS {
        for (flags, bytes) in at_seven(count).iter().flat_map(|flags| around(count).map(|bytes| (flags, bytes))) {
            let key = bytes.wrapping_add(1);
            visit(Both { flags: flags.clone(), key, value: bytes, key_rows: rows.clone(), value_rows: rows.clone() });
        }
    }
}

/// Sums and totals up to and past the largest.
fn sums(count: u32, visit: &mut Visit) {
    for other in [u32::MAX - count, (u32::MAX - count).wrapping_add(1)] {
        let rows = Removal::sectioned(&[(ZEROS, 3, count), (ZEROS, u16::MAX, other)]);
        visit(Question::TotalRemovedBytes { removal: rows.clone() });
        visit(Question::HasRemoval { removal: rows });
        let forms = |bytes| [Removal::basic(bytes), Removal::sectioned(&[(ZEROS, u16::MAX, bytes)])];
        for (mut ours, rhs) in forms(count).into_iter().flat_map(|ours| forms(other).map(|rhs| (ours.clone(), rhs))) {
            ours.rows.ids.push([0x5a; 32]);
            ours.rows.epochs.push(0x5a5a);
            ours.rows.bytes.push(0x5a5a_5a5a);
            visit(Question::AddAssign { ours: ours.clone(), rhs: rhs.clone(), version: 0 });
            visit(Question::AddAssign { ours, rhs, version: 1 });
        }
    }
}
