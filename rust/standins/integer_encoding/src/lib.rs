//! Stands for the crate integer-encoding, which is not at hand: the base-128 varints of the Protocol Buffers encoding page, seven bits a
//! byte, lowest group first, top bit set on all but the last byte.

/// The longest varint that is read.
const MOST_BYTES: usize = 10;

/// What the original asks of a number.
pub trait VarInt: Sized + Copy {
    /// The number at the start of some bytes and how many bytes it has. None where the bytes end too soon, or where ten have the top bit
    /// set. Bits above those of the number are dropped.
    fn decode_var(src: &[u8]) -> Option<(Self, usize)>;
    /// How many bytes the number has.
    fn required_space(self) -> usize;
    /// The number's bytes.
    fn encode_var_vec(self) -> Vec<u8>;
}

impl VarInt for u64 {
    fn decode_var(src: &[u8]) -> Option<(Self, usize)> {
        let mut value = 0u64;
        for (place, byte) in src.iter().take(MOST_BYTES).enumerate() {
            value |= u64::from(byte & 0x7f) << (7 * place);
            if byte & 0x80 == 0 {
                return Some((value, place + 1));
            }
        }
        None
    }

    fn required_space(self) -> usize {
        self.encode_var_vec().len()
    }

    fn encode_var_vec(self) -> Vec<u8> {
        let mut rest = self;
        let mut bytes = Vec::new();
        while rest >= 0x80 {
            bytes.push(rest as u8 | 0x80);
            rest >>= 7;
        }
        bytes.push(rest as u8);
        bytes
    }
}

impl VarInt for u32 {
    fn decode_var(src: &[u8]) -> Option<(Self, usize)> {
        u64::decode_var(src).map(|(value, used)| (value as u32, used))
    }

    fn required_space(self) -> usize {
        u64::from(self).required_space()
    }

    fn encode_var_vec(self) -> Vec<u8> {
        u64::from(self).encode_var_vec()
    }
}
