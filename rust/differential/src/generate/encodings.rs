//! Encodings: good ones, damaged copies of them, and strings over the bytes at which reading changes.
use super::flags;
use crate::convert;
use crate::random::Random;

/// Bytes at which reading changes: kinds, small epochs, the ends of a varint's byte.
pub const BYTES: [u8; 12] = [0, 1, 2, 3, 4, 5, 7, 0x0f, 0x10, 0x7f, 0x80, 0xff];

/// The bytes of proper flags.
pub fn good(random: &mut Random, most: usize) -> Vec<u8> {
    convert::flags(&flags::proper(random, most)).serialize()
}

/// A damaged copy: a byte changed, cut, put in, or two swapped.
pub fn damage(random: &mut Random, bytes: &mut Vec<u8>) {
    if bytes.is_empty() {
        return bytes.push(random.pick(&BYTES));
    }
    let place = random.below(bytes.len());
    match random.below(6) {
        0 => bytes[place] = random.pick(&BYTES),
        1 => bytes[place] = random.bits() as u8,
        2 => bytes.truncate(place),
        3 => bytes.insert(place, random.pick(&BYTES)),
        4 => bytes.push(random.pick(&BYTES)),
        _ => {
            let other = random.below(bytes.len());
            bytes.swap(place, other);
        }
    }
}

/// A string of boundary bytes.
fn loose(random: &mut Random) -> Vec<u8> {
    let length = random.below(20) + if random.one_in(2) { 0 } else { 33 };
    (0..length).map(|_| random.pick(&BYTES)).collect()
}

/// Records whose counts are written too long, up to past ten bytes, behind a good start.
fn long_counts(random: &mut Random, most: usize) -> Vec<u8> {
    let mut bytes = good(random, most);
    bytes.extend([0xff, 0xf0 + random.below(16) as u8]);
    for _ in 0..random.below(12) {
        bytes.push(0x80 | random.pick(&BYTES));
    }
    bytes.push(random.pick(&BYTES));
    bytes
}

/// Any of these; mostly good or damaged once or twice.
pub fn any(random: &mut Random, most: usize) -> Vec<u8> {
    let mut bytes = match random.below(12) {
        0 => return loose(random),
        1 => return long_counts(random, most),
        2 => return Vec::new(),
        _ => good(random, most),
    };
    if random.one_in(2) {
        damage(random, &mut bytes);
        if random.one_in(3) {
            damage(random, &mut bytes);
        }
    }
    bytes
}
