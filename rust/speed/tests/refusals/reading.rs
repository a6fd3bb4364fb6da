use super::{ask, ask_at_random, short, tables};
use differential::generate::{encodings, lent};
use differential::values::Tables;

/// Refusals that one pass may meet only behind a record that has no room.
const LATER: [u32; 2] = [2, 3];

/// Asks all programs to read some bytes.
fn read(bytes: &[u8], tables: &Tables) -> u32 {
    ask(tables, &LATER, |program, lent| (program.read)(bytes, &mut lent.epochs, &mut lent.counts))
}

/// Reads bytes with ample room, with room for so many records, and with less; the number of the first is known, less is refused with 10.
fn expect(number: u32, records: usize, bytes: &[u8]) {
    for room in [records, records + 1, records + 9] {
        assert_eq!(read(bytes, &tables(room)), number, "{bytes:?}, room for {room}");
    }
    for room in 0..records {
        let number = if number == 0 { 10 } else { number };
        for lent in short(room, records) {
            assert_eq!(read(bytes, &lent), number, "{bytes:?}, room for {room}");
        }
    }
}

/// Flags of kind 1 and of kind 3 with such bytes behind the base, which is 5.
fn expect_behind(number: u32, records: usize, behind: &[u8]) {
    expect(number, records, &[&[1, 0, 5], behind].concat());
    expect(number, records, &[&[3], [9; 32].as_slice(), &[0, 5], behind].concat());
}

#[test]
fn kinds_and_sizes() {
    expect(0, 0, &[]);
    for kind in 4..=255 {
        expect(1, 0, &[kind]);
        expect(1, 0, &[kind, 0, 5, 0, 7, 1]);
    }
    for length in 1..=40 {
        expect(if length == 3 { 0 } else { 2 }, 0, &[0; 40][..length]);
        let owned = [[2].as_slice(), &[9; 39]].concat();
        expect(if length == 35 { 0 } else { 2 }, 0, &owned[..length]);
    }
    let whole = [[3].as_slice(), &[9; 32], &[0, 5, 0, 7, 0x80, 1, 0, 8, 0]].concat();
    for length in 1..=whole.len() {
        let number = if [39, 42].contains(&length) { 0 } else { 2 };
        let records = (length - 35.min(length)).div_ceil(4);
        expect(number, records, &whole[..length]);
    }
    expect_behind(2, 0, &[]);
}

#[test]
fn epochs_rise() {
    for (number, epochs) in [(0, [6, 7]), (3, [5, 7]), (3, [4, 7]), (3, [6, 6]), (3, [7, 6]), (0, [255, 254 + 2]), (0, [6, 65_535])] {
        let records: Vec<u8> = epochs.into_iter().flat_map(|epoch: u16| [epoch.to_be_bytes().as_slice(), &[3]].concat()).collect();
        expect_behind(number, 2, &records);
    }
}

#[test]
fn varints() {
    let good = [0u32, 127, 128, 16_383, 16_384, 2_097_151, 2_097_152, 268_435_455, 268_435_456, u32::MAX];
    for count in good {
        let bytes = differential::convert::varint(count);
        expect_behind(0, 1, &[&[0, 7], bytes.as_slice()].concat());
        // one byte longer than it has to be, and cut
        let (last, start) = bytes.split_last().expect("a varint has a byte");
        expect_behind(3, 1, &[&[0, 7], start, &[last | 0x80, 0]].concat());
        expect_behind(2, 1, &[&[0, 7], start].concat());
    }
    for last in 0x10..=0x7f {
        expect_behind(3, 1, &[0, 7, 0xff, 0xff, 0xff, 0xff, last]);
    }
    for length in 1..=11 {
        for top in [0x80, 0xff] {
            let bytes = [[0, 7].as_slice(), &vec![top; length]].concat();
            expect_behind(2, 1, &bytes);
            for last in [0, 1, 0x7f] {
                let number = match length {
                    10.. => 2,
                    5.. => 3,
                    _ if last == 0 => 3,
                    4 if last == 0x7f => 3,
                    _ => 0,
                };
                expect_behind(number, 1, &[&bytes, [last].as_slice()].concat());
                // half an epoch behind it is a fault only where there is none before
                expect_behind(if number == 0 { 2 } else { number }, 2, &[&bytes, [last, 0].as_slice()].concat());
            }
        }
    }
}

#[test]
fn random_bytes() {
    ask_at_random(1, &[0, 1, 2, 3, 10], |random| {
        let bytes = encodings::any(random, 8);
        // about as many records as the bytes have
        read(&bytes, &lent::tables(random, bytes.len() / 5))
    });
}
