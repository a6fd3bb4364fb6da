//! Counts, epochs and owners, often at a boundary.
use crate::random::Random;
use crate::values::{Id, ZEROS};

/// Counts at which something changes: the 3 that a record keeps, the lengths of varints, the largest amounts.
pub const COUNTS: [u32; 24] = [
    0,
    1,
    2,
    3,
    4,
    5,
    6,
    7,
    126,
    127,
    128,
    16_383,
    16_384,
    2_097_151,
    2_097_152,
    268_435_455,
    268_435_456,
    4_294_967_289,
    4_294_967_290,
    4_294_967_291,
    4_294_967_292,
    4_294_967_293,
    4_294_967_294,
    4_294_967_295,
];

/// Epochs at the ends of their bytes.
pub const EPOCHS: [u16; 12] = [0, 1, 2, 127, 128, 255, 256, 32_767, 32_768, 65_533, 65_534, 65_535];

/// Bytes that are no removal and no strategy; all but the first are no kind either.
pub const BAD_BYTES: [u8; 5] = [3, 4, 5, 128, 255];

/// Owners that differ in the first or in the last byte only.
pub const OWNERS: [Id; 7] =
    [ZEROS, one_byte(0, 31, 1), one_byte(0, 0, 1), one_byte(0, 0, 128), [255; 32], one_byte(255, 31, 254), one_byte(7, 16, 9)];

/// Bytes that are all the same but one.
pub const fn one_byte(all: u8, place: usize, byte: u8) -> Id {
    let mut id = [all; 32];
    id[place] = byte;
    id
}

/// A count.
pub fn count(random: &mut Random) -> u32 {
    match random.below(8) {
        0..=3 => random.pick(&COUNTS),
        4 | 5 => random.below(16) as u32,
        _ => any_width(random),
    }
}

/// A number of any width.
pub fn any_width(random: &mut Random) -> u32 {
    let width = random.below(33) as u32;
    ((random.bits() & 0xffff_ffff) >> (32 - width)) as u32
}

/// An epoch.
pub fn epoch(random: &mut Random) -> u16 {
    match random.below(4) {
        0 => random.pick(&EPOCHS),
        1 | 2 => random.below(16) as u16,
        _ => random.bits() as u16,
    }
}

/// An epoch above a base that is not the last.
pub fn epoch_above(random: &mut Random, base: u16) -> u16 {
    let distance = u16::MAX - base;
    let above = match random.below(4) {
        0 | 1 => random.below(24),
        2 => random.below(usize::from(distance)),
        _ => usize::from(distance - 1) - random.below(3).min(usize::from(distance - 1)),
    };
    base + 1 + above.min(usize::from(distance - 1)) as u16
}

/// An owner.
pub fn owner(random: &mut Random) -> Id {
    if random.one_in(8) {
        return std::array::from_fn(|_| random.bits() as u8);
    }
    random.pick(&OWNERS)
}

/// A strategy.
pub fn strategy(random: &mut Random) -> u8 {
    random.below(3) as u8
}

/// A number near another one: as it is, a little less or a little more.
pub fn near(random: &mut Random, number: u32) -> u32 {
    match random.below(4) {
        0 => number,
        1 => number.wrapping_add(random.below(4) as u32),
        _ => number.wrapping_sub(random.below(6) as u32),
    }
}
