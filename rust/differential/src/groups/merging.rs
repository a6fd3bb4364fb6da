//! Both merges, in both forms.
use super::{fit, Visit};
use crate::generate::{flags, lent, numbers, removals};
use crate::question::{Merge, Question};
use crate::random::Random;
use crate::values::*;

/// Incoming bases below, at and above ours.
const BASES: [u16; 4] = [4, 5, 6, 7];

/// Owners, kinds, bases and strategies together; unions; counts with amounts and sections; rooms and present bytes.
pub fn boundaries(visit: &mut Visit) {
    owners(visit);
    unions(visit);
    amounts(visit);
    sections(visit);
    bases(visit);
    rooms(visit);
}

/// Junk for so many records.
fn room(length: usize) -> Tables {
    Tables { epochs: vec![0x5a5a; length], counts: vec![0x5a5a_5a5a; length] }
}

/// Flags at base 5 with a record at 7 if the kind has records.
fn ours(kind: u8, owner: Id, count: u32) -> Flags {
    Flags::new(kind, 5, owner, &[(7, count)][..usize::from(kind % 2)])
}

/// Flags at a base with a record at 9 if the kind has records.
fn theirs(kind: u8, base: u16, owner: Id) -> Flags {
    Flags::new(kind, base, owner, &[(9, 20)][..usize::from(kind % 2)])
}

/// Both merges of two flags, with a removal of all kinds under an owner.
fn both(ours: Flags, theirs: Flags, strategy: u8, id: Id, visit: &mut Visit) {
    for removal in [Removal::default(), Removal::basic(1), Removal::sectioned(&[]), Removal::sectioned(&[(id, 7, 1)])] {
        let (ours, theirs) = (ours.clone(), theirs.clone());
        visit(Question::CombineRemoved(Merge { present: None, ours, theirs, with: removal, strategy, lent: room(6) }));
    }
    visit(Question::CombineAdded(Merge { present: None, ours, theirs, with: 5, strategy, lent: room(6) }));
}

/// Kinds, owners, bases and strategies.
fn owners(visit: &mut Visit) {
    let pairs = [(0, 0), (0, 1), (1, 0), (1, 1), (1, 2), (4, 5), (6, 6)];
    for (our_kind, their_kind) in (0..4).flat_map(|our_kind| (0..4).map(move |their_kind| (our_kind, their_kind))) {
        for (base, strategy) in BASES.into_iter().flat_map(|base| [0, 1, 2, 3].map(|strategy| (base, strategy))) {
            for (our_owner, their_owner) in pairs.map(|(our, their)| (numbers::OWNERS[our], numbers::OWNERS[their])) {
                let given = || (ours(our_kind, our_owner, 10), theirs(their_kind, base, their_owner));
                for id in [our_owner, their_owner] {
                    let (ours, theirs) = given();
                    both(ours, theirs, strategy, id, visit);
                }
            }
        }
    }
}

/// Records on both sides, some at the same epoch, below, at and above the incoming base.
fn unions(visit: &mut Visit) {
    for (count, incoming) in pairs() {
        for base in [5, 6, 7, 8] {
            let ours = Flags::new(1, 5, ZEROS, &[(6, 50), (7, count), (8, 60)]);
            let theirs = Flags::new(1, base, ZEROS, &[(9, 70), (10, incoming)]);
            both(ours.clone(), theirs, 0, ZEROS, visit);
            let theirs = Flags::new(1, base, ZEROS, &[(6, 80), (7, incoming), (8, 90), (9, 70)][usize::from(base) - 5..]);
            both(ours, theirs, 0, ZEROS, visit);
        }
    }
}

/// Counts with amounts, at the record's epoch and beside it.
fn amounts(visit: &mut Visit) {
    for (count, amount) in pairs() {
        for (kind, base) in [(0, 7), (1, 7), (3, 7), (1, 6), (1, 8), (1, 5)] {
            let (ours, theirs) = (ours(kind, [9; 32], count), Flags::new(kind & 2, base, [9; 32], &[]));
            visit(Question::CombineAdded(Merge { present: None, ours, theirs, with: amount, strategy: 0, lent: room(2) }));
        }
    }
}

/// All pairs of counts.
fn pairs() -> impl Iterator<Item = (u32, u32)> {
    numbers::COUNTS.into_iter().flat_map(|first| numbers::COUNTS.map(|second| (first, second)))
}

/// Counts with sections: at the record, at the base beside it, where no record is, and two at fault.
fn sections(visit: &mut Visit) {
    for (count, bytes) in pairs() {
        for (kind, id) in [(1, ZEROS), (3, [9; 32]), (3, ZEROS)] {
            for rows in
                [&[(id, 7, bytes)][..], &[(id, 5, bytes), (id, 7, bytes)], &[(id, 7, bytes), (id, 8, 0)], &[(id, 6, 0), (id, 7, bytes)]]
            {
                let (ours, theirs) = (ours(kind, [9; 32], count), Flags::new(kind & 2, 9, [9; 32], &[]));
                let with = Removal::sectioned(rows);
                visit(Question::CombineRemoved(Merge { present: None, ours, theirs, with, strategy: 0, lent: room(1) }));
            }
        }
    }
}

/// Bases and epochs at the ends.
fn bases(visit: &mut Visit) {
    for (our_base, their_base) in numbers::EPOCHS.into_iter().flat_map(|ours| numbers::EPOCHS.map(|theirs| (ours, theirs))) {
        for epoch in numbers::EPOCHS {
            let (ours, theirs) = (Flags::new(1, our_base, ZEROS, &[(epoch, 10)]), Flags::new(0, their_base, ZEROS, &[]));
            both(ours.clone(), theirs.clone(), 0, ZEROS, visit);
            both(theirs, ours, 0, ZEROS, visit);
        }
    }
}

/// All rooms of both tables up to what is needed and one more, and present bytes; absent ours may be anything.
fn rooms(visit: &mut Visit) {
    for (epochs, counts) in (0..5).flat_map(|epochs| (0..5).map(move |counts| (epochs, counts))) {
        let lent = Tables { epochs: room(epochs).epochs, counts: room(counts).counts };
        for present in [None, Some(0), Some(1), Some(2), Some(255)] {
            for our_kind in [0, 1, 3, 4, 255] {
                let (ours, theirs) = (ours(our_kind, [9; 32], 10), theirs(1, 7, ZEROS));
                let with = Removal::sectioned(&[(ours.identifier(), 7, 8)]);
                let removing = Merge { present, ours, theirs, with, strategy: 1, lent: lent.clone() };
                visit(Question::CombineAdded(removing.clone().having(1)));
                visit(Question::CombineRemoved(removing));
            }
        }
    }
}

/// What both random merges have: which form, both flags, a strategy, and ample room.
fn given(random: &mut Random, most: usize) -> Merge<()> {
    let ours = flags::proper(random, most);
    let theirs = flags::incoming(random, &ours, most);
    let present = match random.below(8) {
        0 => Some(0),
        1 | 2 => Some(random.pick(&[1, 1, 2, 255])),
        _ => None,
    };
    let strategy = if random.one_in(32) { random.pick(&numbers::BAD_BYTES) } else { numbers::strategy(random) };
    let lent = lent::exact_tables(random, ours.head.records + theirs.head.records + 1);
    Merge { present, ours, theirs, with: (), strategy, lent }
}

/// The merge, with flags that may have longer tables or not be proper, and with room that may not be enough.
fn changed<T>(random: &mut Random, mut merge: Merge<T>, form: fn(Merge<T>) -> Question) -> Question {
    merge.ours = flags::changed(random, merge.ours);
    merge.theirs = flags::changed(random, merge.theirs);
    fit(random, form(merge))
}

/// A random adding merge. Its amount is often near what the record at the incoming base can still take.
pub fn added(random: &mut Random, most: usize) -> Question {
    let merge = given(random, most);
    let there = merge.ours.records().find(|record| record.0 == merge.theirs.head.base);
    let amount = match there {
        Some((_, count)) if random.one_in(2) => numbers::near(random, u32::MAX - count),
        _ => numbers::count(random),
    };
    changed(random, merge.having(amount), Question::CombineAdded)
}

/// A random removing merge.
pub fn removed(random: &mut Random, most: usize) -> Question {
    let merge = given(random, most);
    let removal = removals::for_merge(random, &merge.ours, &merge.theirs, most);
    let removal = removals::changed(random, removal);
    changed(random, merge.having(removal), Question::CombineRemoved)
}
