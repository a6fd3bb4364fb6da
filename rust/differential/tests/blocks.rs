//! Reading in blocks of 64 records, of which the first 16,384 wait for those behind them: numbers of records and faults at the places where
//! blocks meet. The library, on lent tables with a pattern in them, answers as the original, and a refusal leaves the pattern as it was.
use differential::blocks::{long, mixed, short, Counts, Encoded, Fault, BLOCK};
use differential::boundary;
use differential::convert;
use differential::expected::expected;
use differential::question::{Question, READERS};
use differential::values::*;
use grovedb_epoch_based_storage_flags::StorageFlags;
use petasunok::lent::{self, Head};
use std::collections::BTreeSet;

/// Blocks that wait; the records behind them are read in two passes.
const WAITING: usize = 16_384 / BLOCK;

/// Numbers of records around those at which blocks end; flags cannot have more than the last.
const FEW: [usize; 11] = [1, 2, 63, 64, 65, 127, 128, 129, 192, 193, 1_024];
const MANY: [usize; 6] = [16_383, 16_384, 16_385, 16_448, 16_449, 65_535];

/// Counts of one byte, of mixed lengths and of five bytes.
const COUNTS: [Counts; 3] = [short, mixed, long];

/// Flags of both kinds that have records, of each of some numbers of records and with each of some rules for their counts.
fn each(records: &[usize], counts: &[Counts], test: impl Fn(&Encoded)) {
    for (records, count) in records.iter().flat_map(|records| counts.iter().map(move |count| (*records, *count))) {
        test(&Encoded::new(1, records, count));
        test(&Encoded::new(3, records, count));
    }
}

/// Tables with so many places and a pattern in them: no place has the epoch that a record would put there.
fn pattern(epochs: usize, counts: usize) -> Tables {
    Tables {
        epochs: (0..epochs).map(|place| place as u16 ^ 0x8000).collect(),
        counts: (0..counts).map(|place| place as u32 ^ 0x5a5a_5a5a).collect(),
    }
}

/// What the library answers, a refusal by its number, and what the tables have afterwards.
fn read(src: &[u8], lent: &Tables) -> (Result<Option<Head>, u32>, Tables) {
    let mut lent = lent.clone();
    let answer = lent::deserialize(src, &mut lent.epochs, &mut lent.counts);
    (answer.map_err(|refusal| refusal.number()), lent)
}

/// What the original answers.
fn original(src: &[u8]) -> Result<Flags, u32> {
    let flags = StorageFlags::deserialize(src).map_err(|error| convert::number(&error))?;
    Ok(convert::from_flags(&flags.expect("there are bytes")))
}

/// The library refuses with a number, and the tables have not changed.
fn refuses(src: &[u8], lent: &Tables, number: u32) -> bool {
    let (answer, after) = read(src, lent);
    answer == Err(number) && after == *lent
}

/// The kind and the number of records, for messages.
fn named(encoded: &Encoded) -> String {
    format!("kind {}, {} records", encoded.flags.head.kind, encoded.flags.head.records)
}

/// The first, a middle and the last two records of blocks: of all where there are few, else of the first two, a middle one, the last, and
/// the two at the place where waiting ends.
fn places(records: usize) -> BTreeSet<usize> {
    let blocks = records.div_ceil(BLOCK);
    let some = [0, 1, blocks / 2, WAITING - 1, WAITING, blocks - 1];
    let chosen = (0..blocks).filter(|block| blocks <= 16 || some.contains(block));
    let in_block = |block| {
        let (start, end) = (BLOCK * block, records.min(BLOCK * (block + 1)));
        [start, (start + end) / 2, end.saturating_sub(2), end - 1]
    };
    chosen.flat_map(in_block).collect()
}

#[test]
fn what_is_read_is_what_the_original_reads() {
    each(&[&FEW[..], &MANY].concat(), &COUNTS, |encoded| {
        let (name, flags) = (named(encoded), &encoded.flags);
        assert!(original(&encoded.bytes).as_ref() == Ok(flags), "{name}");
        for more in [0, 3] {
            let room = flags.head.records + more;
            let lent = pattern(room, room);
            assert!(read(&encoded.bytes, &lent) == (Ok(Some(flags.head)), lent.with(&flags.tables)), "{name}, room for {room}");
        }
    });
}

#[test]
fn one_place_less_is_refused() {
    each(&[&FEW[..], &MANY].concat(), &COUNTS, |encoded| {
        let (name, needed) = (named(encoded), encoded.flags.head.records);
        for (epochs, counts) in [(needed - 1, needed + 3), (needed + 3, needed - 1)] {
            assert!(refuses(&encoded.bytes, &pattern(epochs, counts), 10), "{name}, {epochs} epochs and {counts} counts");
        }
    });
}

/// The fault is told with the room for all, and with none.
fn faults_are_refused(encoded: &Encoded) {
    let records = encoded.flags.head.records;
    let rooms = [pattern(records + 3, records + 3), pattern(0, 0)];
    for (place, fault) in places(records).into_iter().flat_map(|place| Fault::ALL.map(|fault| (place, fault))) {
        let (src, number) = (encoded.damaged(place, fault), fault.refusal());
        let refused = original(&src) == Err(number) && rooms.iter().all(|lent| refuses(&src, lent, number));
        assert!(refused, "{}, {fault:?} in the record at {place}", named(encoded));
    }
}

#[test]
fn a_fault_in_any_block_is_refused() {
    each(&FEW, &COUNTS, faults_are_refused);
}

/// Of one kind and with mixed counts only, so that a dev build is done in seconds.
#[test]
fn a_fault_where_waiting_ends_is_refused() {
    for records in MANY {
        faults_are_refused(&Encoded::new(3, records, mixed));
    }
}

#[test]
fn all_readers_read_two_blocks() {
    each(&[65], &[mixed], |encoded| {
        for (reader, room) in READERS.into_iter().flat_map(|reader| [64, 65, 68].map(|room| (reader, room))) {
            let question = Question::Read { reader, src: encoded.bytes.clone(), lent: pattern(room, room) };
            assert_eq!(boundary::ask(&question), expected(&question).reply);
        }
    });
}
