//! Varints: seven bits a byte, lowest group first, the top bit set on all but the last byte.

/// The longest varint that is read.
const MOST_BYTES: usize = 10;

/// The number at the start of some bytes, and how many bytes it has; none where they end too soon, or where ten have the top bit set.
#[inline]
pub fn varint(bytes: &[u8]) -> Option<(u64, usize)> {
    let mut value = 0;
    for (place, byte) in bytes.iter().take(MOST_BYTES).enumerate() {
        value |= u64::from(byte & 0x7f) << (7 * place);
        if byte & 0x80 == 0 {
            return Some((value, place + 1));
        }
    }
    None
}

/// How many bytes a count has: one for each seven significant bits begun, and one for 0.
#[inline]
pub fn length(count: u32) -> usize {
    (38 - (count | 1).leading_zeros() as usize) / 7
}

/// Writes a count at a place where there is room for it, and gives the place behind it.
#[inline]
pub fn put(mut count: u32, out: &mut [u8], mut at: usize) -> usize {
    while count >= 0x80 {
        out[at] = count as u8 | 0x80;
        at += 1;
        count >>= 7;
    }
    out[at] = count as u8;
    at + 1
}
