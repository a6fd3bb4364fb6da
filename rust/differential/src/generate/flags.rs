//! Flags: proper ones, ones that have something to do with others, and ones that are not proper.
use super::numbers;
use crate::model;
use crate::random::Random;
use crate::values::*;
use std::collections::BTreeMap;

/// Proper flags of at most so many records, in tables that may be longer.
pub fn proper(random: &mut Random, most: usize) -> Flags {
    let base = numbers::epoch(random);
    let kind = random.below(4) as u8;
    made(random, kind, base, most, &[])
}

/// Flags of a kind, or of the one without records at the last base; some of their epochs are taken from a list.
fn made(random: &mut Random, kind: u8, base: u16, most: usize, epochs: &[u16]) -> Flags {
    let mut records = BTreeMap::new();
    if model::has_records(kind) && base < u16::MAX {
        for _ in 0..1 + random.size(most - 1) {
            let epoch = numbers::epoch_above(random, base);
            records.insert(epoch, numbers::count(random));
        }
        for epoch in epochs.iter().filter(|epoch| **epoch > base) {
            if random.one_in(2) && records.len() < most {
                records.insert(*epoch, numbers::count(random));
            }
        }
    }
    let kind = if records.is_empty() { kind & 2 } else { kind };
    // the owner bytes of unowned flags are not read, so they may be anything
    let owner = if kind >= 2 || random.one_in(3) { numbers::owner(random) } else { ZEROS };
    let records: Vec<_> = records.into_iter().collect();
    Flags::new(kind, base, owner, &records)
}

/// Incoming flags for ours: a base below, at or above ours, often at one of our epochs, and often our owner and epochs.
pub fn incoming(random: &mut Random, ours: &Flags, most: usize) -> Flags {
    let our_base = ours.head.base;
    let epochs: Vec<u16> = ours.records().map(|record| record.0).collect();
    let base = match random.below(8) {
        0 | 1 => our_base,
        2 => our_base.wrapping_sub(1),
        3 => numbers::epoch(random),
        4 if our_base < u16::MAX => numbers::epoch_above(random, our_base),
        _ if epochs.is_empty() => our_base.saturating_add(1),
        _ => random.pick(&epochs),
    };
    let kind = random.below(4) as u8;
    let mut theirs = made(random, kind, base, most, &epochs);
    if random.one_in(2) {
        theirs.head.owner = ours.head.owner;
    }
    theirs
}

/// Lengthens the tables behind the records, not always both.
pub fn loosen(random: &mut Random, flags: &mut Flags) {
    for _ in 0..random.below(4) {
        flags.tables.epochs.push(numbers::epoch(random));
    }
    for _ in 0..random.below(4) {
        flags.tables.counts.push(numbers::count(random));
    }
}

/// Makes flags that are not proper, if the change that is tried does so.
pub fn spoil(random: &mut Random, flags: &mut Flags) {
    let (epochs, records) = (&mut flags.tables.epochs, flags.head.records);
    match random.below(8) {
        0 => flags.head.kind = random.pick(&numbers::BAD_BYTES),
        1 => flags.head.records = random.pick(&[records + 1, 65_535, usize::MAX, 1 << 32]),
        2 => flags.head.records = flags.tables.room() + 1,
        3 if records >= 2 => {
            let place = random.below(records - 1);
            epochs.swap(place, place + 1);
        }
        4 if records >= 2 => {
            let place = random.below(records - 1);
            epochs[place + 1] = epochs[place];
        }
        5 if records >= 1 => epochs[0] = flags.head.base.saturating_sub(random.below(2) as u16),
        6 => flags.head.kind ^= 1,
        _ => flags.head.records = 0,
    }
}

/// Flags, now and then with longer tables or not proper.
pub fn any(random: &mut Random, most: usize) -> Flags {
    let flags = proper(random, most);
    changed(random, flags)
}

/// Flags as they are, or with longer tables, or not proper.
pub fn changed(random: &mut Random, mut flags: Flags) -> Flags {
    if random.one_in(4) {
        loosen(random, &mut flags);
    }
    if random.one_in(16) {
        spoil(random, &mut flags);
    }
    flags
}
