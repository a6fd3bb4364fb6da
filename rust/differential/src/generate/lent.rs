//! What is lent, filled with junk.
use super::numbers;
use crate::random::Random;
use crate::values::*;

/// So many elements of junk.
fn junk<T>(length: usize, mut one: impl FnMut() -> T) -> Vec<T> {
    (0..length).map(|_| one()).collect()
}

/// A length for a need: none, one short, exact, or ample.
fn length(random: &mut Random, need: usize) -> usize {
    match random.below(8) {
        0 => 0,
        1 => need.saturating_sub(1),
        2..=4 => need,
        5 => need + 1,
        _ => need + random.below(5),
    }
}

/// Lengths for some tables, mostly all the same.
fn lengths<const N: usize>(random: &mut Random, need: usize) -> [usize; N] {
    if random.one_in(3) {
        return std::array::from_fn(|_| length(random, need));
    }
    [length(random, need); N]
}

/// Tables for records of such lengths.
fn tables_of(random: &mut Random, epochs: usize, counts: usize) -> Tables {
    Tables { epochs: junk(epochs, || random.bits() as u16), counts: junk(counts, || random.bits() as u32) }
}

/// Tables for rows of such lengths, with numbers made of 64 bits.
fn rows_of<T>(random: &mut Random, [ids, epochs, bytes]: [usize; 3], number: fn(u64) -> T) -> Rows<T> {
    Rows {
        ids: junk(ids, || numbers::owner(random)),
        epochs: junk(epochs, || random.bits() as u16),
        bytes: junk(bytes, || number(random.bits())),
    }
}

/// Room for a repair of such lengths. Its offsets are junk of 16 bits, which stored answers can have, or of 64.
fn repaired_of(random: &mut Random, bytes: usize, offsets: usize, changes: usize) -> Repaired {
    let shift = if random.one_in(2) { 48 } else { 0 };
    Repaired {
        out: junk(bytes, || random.bits() as u8),
        offsets: junk(offsets, || (random.bits() >> shift) as usize),
        changes: junk(changes, || random.bits() as u8),
    }
}

/// Tables for records, with a need.
pub fn tables(random: &mut Random, need: usize) -> Tables {
    let [epochs, counts] = lengths(random, need);
    tables_of(random, epochs, counts)
}

/// Tables for exactly so many records.
pub fn exact_tables(random: &mut Random, length: usize) -> Tables {
    tables_of(random, length, length)
}

/// Tables for rows, with a need.
pub fn rows(random: &mut Random, need: usize) -> Rows {
    let lengths = lengths(random, need);
    rows_of(random, lengths, |bits| bits as u32)
}

/// Tables for exactly so many rows.
pub fn exact_rows(random: &mut Random, length: usize) -> Rows {
    rows_of(random, [length; 3], |bits| bits as u32)
}

/// Tables for totals, with a need and with places for rows that stand there already.
pub fn totals(random: &mut Random, need: usize, rows: usize) -> Rows<u64> {
    let lengths = lengths(random, need).map(|length: usize| length.max(rows));
    rows_of(random, lengths, |bits| bits)
}

/// Tables for exactly so many totals.
pub fn exact_totals(random: &mut Random, length: usize) -> Rows<u64> {
    rows_of(random, [length; 3], |bits| bits)
}

/// Bytes, with a need.
pub fn bytes(random: &mut Random, need: usize) -> Vec<u8> {
    let [length] = lengths(random, need);
    junk(length, || random.bits() as u8)
}

/// Room for a repair, with a need of bytes and one of lines.
pub fn repaired(random: &mut Random, bytes: usize, lines: usize) -> Repaired {
    let bytes = length(random, bytes);
    let [offsets, changes] = lengths(random, lines);
    repaired_of(random, bytes, offsets, changes)
}

/// Room for a repair of exactly so many bytes and lines.
pub fn exact_repaired(random: &mut Random, bytes: usize, lines: usize) -> Repaired {
    repaired_of(random, bytes, lines, lines)
}
