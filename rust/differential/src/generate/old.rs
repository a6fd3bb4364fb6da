//! Old encodings: records in any order, several for one epoch, counts that are too long or too large, and damaged copies.
use super::{encodings, flags, numbers};
use crate::convert;
use crate::random::Random;
use crate::values::Flags;

/// The bytes of a count: minimal, made longer up to ten bytes and past them, or above 32 bits.
fn count(random: &mut Random) -> Vec<u8> {
    let mut bytes = convert::varint(numbers::count(random));
    match random.below(8) {
        0 | 1 => (0..random.below(10)).for_each(|_| convert::pad(&mut bytes)),
        2 => bytes = too_large(random),
        _ => {}
    }
    bytes
}

/// A count above 32 bits, in five to ten bytes.
fn too_large(random: &mut Random) -> Vec<u8> {
    let mut bytes: Vec<u8> = (0..4 + random.below(6)).map(|_| 0x80 | random.bits() as u8).collect();
    // the fifth group has four bits below the limit
    let least = if bytes.len() == 4 { 16 } else { 1 };
    bytes.push((least + random.below(128 - least)) as u8);
    bytes
}

/// An epoch near a base, mostly above it.
fn epoch(random: &mut Random, base: u16, spread: usize) -> u16 {
    match random.below(16) {
        0 => base.saturating_sub(random.below(3) as u16),
        1 => numbers::epoch(random),
        _ => base.saturating_add(1 + random.below(spread) as u16),
    }
}

/// Records with epochs that meet often or seldom, in any order or in that of their epochs.
fn records(random: &mut Random, most: usize) -> Vec<u8> {
    let start = flags::proper(random, 1);
    let spread = random.pick(&[4, 24, 4_096]);
    let mut records: Vec<_> = (0..random.size(most))
        .map(|_| {
            let epoch = epoch(random, start.head.base, spread);
            convert::record(epoch, &count(random))
        })
        .collect();
    if random.one_in(3) {
        records.sort_by_key(|record| [record[0], record[1]]);
    }
    let mut bytes = convert::start(&start);
    // mostly of a kind that has records
    bytes[0] |= u8::from(!random.one_in(8));
    bytes.extend(records.concat());
    bytes
}

/// The records of proper flags in another order, each as it is.
fn shuffled(random: &mut Random, most: usize) -> Vec<u8> {
    let flags: Flags = flags::proper(random, most);
    let mut records: Vec<_> = flags.records().map(|(epoch, count)| convert::record(epoch, &convert::varint(count))).collect();
    for place in (1..records.len()).rev() {
        records.swap(place, random.below(place + 1));
    }
    [convert::start(&flags), records.concat()].concat()
}

/// Any of these, or any of the readers' encodings; some are damaged or cut, or have a kind that does not exist.
pub fn any(random: &mut Random, most: usize) -> Vec<u8> {
    let mut bytes = match random.below(4) {
        0 => encodings::any(random, most),
        1 => shuffled(random, most),
        _ => records(random, most),
    };
    if random.one_in(3) {
        encodings::damage(random, &mut bytes);
    }
    if random.one_in(24) {
        bytes.truncate(random.below(40));
    }
    if random.one_in(32) && !bytes.is_empty() {
        bytes[0] = random.pick(&numbers::BAD_BYTES);
    }
    bytes
}
