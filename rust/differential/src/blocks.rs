//! Flags with many records, which are read in blocks of 64, and copies of their bytes with a fault in one record.
use crate::convert;
use crate::edges;
use crate::generate::numbers::OWNERS;
use crate::groups::Visit;
use crate::question::{Question, READERS};
use crate::values::*;

/// The records of a block.
pub const BLOCK: usize = 64;

/// The count of the record at a place.
pub type Counts = fn(usize) -> u32;

/// What is wrong with a record.
#[derive(Clone, Copy, Debug)]
pub enum Fault {
    /// It has the epoch of the one before it.
    EqualEpoch,
    /// Its count is a byte longer than minimal.
    Padded,
    /// Its count is the first that 32 bits do not hold.
    TooLarge,
    /// The bytes end within its epoch.
    CutEpoch,
    /// The bytes end before the last one of its count.
    CutCount,
    /// Ten bytes of its count say that more follow.
    Endless,
}

use Fault::*;

impl Fault {
    /// All of them.
    pub const ALL: [Fault; 6] = [EqualEpoch, Padded, TooLarge, CutEpoch, CutCount, Endless];

    /// Document 01's number of its refusal.
    pub fn refusal(self) -> u32 {
        match self {
            CutEpoch | CutCount | Endless => 2,
            EqualEpoch | Padded | TooLarge => 3,
        }
    }

    /// Whether the record is the last, since the bytes end in it.
    fn cuts(self) -> bool {
        matches!(self, CutEpoch | CutCount)
    }

    /// The bytes of a record with this fault.
    fn record(self, epoch: u16, count: u32) -> Vec<u8> {
        let mut count = convert::varint(count);
        match self {
            EqualEpoch => return convert::record(epoch - 1, &count),
            Padded => convert::pad(&mut count),
            TooLarge => count = vec![0x80, 0x80, 0x80, 0x80, 0x10],
            CutEpoch => return epoch.to_be_bytes()[..1].to_vec(),
            CutCount => count.truncate(count.len() - 1),
            Endless => count = vec![0x80; 10],
        }
        convert::record(epoch, &count)
    }
}

/// Counts of one byte.
pub fn short(place: usize) -> u32 {
    place as u32 % 128
}

/// Counts of one to five bytes, of which those of one byte are the most frequent.
pub fn mixed(place: usize) -> u32 {
    let shifts = [25, 18, 25, 11, 25, 4, 25, 0, 25];
    (place as u32 + 1).wrapping_mul(0x9e37_79b1) >> shifts[place % shifts.len()]
}

/// Counts of five bytes.
pub fn long(place: usize) -> u32 {
    u32::MAX - place as u32
}

/// Flags, their bytes, and the places where the bytes of each record begin, with the end behind them.
pub struct Encoded {
    pub flags: Flags,
    pub bytes: Vec<u8>,
    begins: Vec<usize>,
}

impl Encoded {
    /// Flags of kind 1 or 3 with so many records: the base is 0, and the epochs are all from 1 on.
    pub fn new(kind: u8, records: usize, count: Counts) -> Encoded {
        let records: Vec<_> = (0..records).map(|place| (place as u16 + 1, count(place))).collect();
        let owner = if kind == 3 { OWNERS[6] } else { ZEROS };
        let flags = Flags::new(kind, 0, owner, &records);
        let mut bytes = convert::start(&flags);
        let mut begins = vec![bytes.len()];
        for (epoch, count) in flags.records() {
            bytes.extend(convert::record(epoch, &convert::varint(count)));
            begins.push(bytes.len());
        }
        Encoded { flags, bytes, begins }
    }

    /// The bytes with a fault in the record at a place.
    pub fn damaged(&self, place: usize, fault: Fault) -> Vec<u8> {
        let (epoch, count) = (self.flags.tables.epochs[place], self.flags.tables.counts[place]);
        let behind = if fault.cuts() { self.bytes.len() } else { self.begins[place + 1] };
        [&self.bytes[..self.begins[place]], &fault.record(epoch, count), &self.bytes[behind..]].concat()
    }
}

/// Readings of one, two and three blocks for the stored answers. The program that replays these has room for 16 records, so they are
/// refused: for want of room, or before that for a fault, in the first record of the second block or in the last of the third.
pub fn questions(visit: &mut Visit) {
    let [one, two, three] = [BLOCK, BLOCK + 1, 2 * BLOCK + 2].map(|records| Encoded::new(1, records, mixed));
    let mut read = |src| visit(Question::Read { reader: READERS[0], src, lent: edges::room(3) });
    for fault in Fault::ALL {
        read(three.damaged(2 * BLOCK + 1, fault));
    }
    read(two.damaged(BLOCK, EqualEpoch));
    for encoded in [one, two, three] {
        read(encoded.bytes);
    }
}
