//! The five readers.
use super::{fit, Visit};
use crate::convert;
use crate::generate::{encodings, lent, numbers};
use crate::question::{Question, READERS};
use crate::random::Random;
use crate::values::Tables;

/// Bytes of a record at which reading changes.
pub const RECORD_BYTES: [u8; 7] = [0, 1, 2, 0x7f, 0x80, 0x81, 0xff];

/// Room for some records, with junk that no record has.
fn some_room(length: usize) -> Tables {
    Tables { epochs: vec![0x5a5a; length], counts: vec![0x5a5a_5a5a; length] }
}

/// All strings of a length over an alphabet.
pub fn strings(alphabet: &[u8], length: usize, visit: &mut dyn FnMut(&[u8])) {
    let mut places = vec![0; length];
    let mut bytes = vec![alphabet[0]; length];
    loop {
        visit(&bytes);
        let Some(last) = places.iter().rposition(|place| *place + 1 < alphabet.len()) else { return };
        places[last] += 1;
        places[last + 1..].fill(0);
        for place in last..length {
            bytes[place] = alphabet[places[place]];
        }
    }
}

/// One string to all five readers.
pub fn all_readers(src: &[u8], room: usize, visit: &mut Visit) {
    for reader in READERS {
        visit(Question::Read { reader, src: src.to_vec(), lent: some_room(room) });
    }
}

/// Strings over the boundary bytes, records over theirs, every length around the fixed ones, and counts of every length.
pub fn boundaries(visit: &mut Visit) {
    for length in 0..=4 {
        strings(&encodings::BYTES, length, &mut |bytes| all_readers(bytes, 1, visit));
    }
    for length in 0..=40 {
        for kind in 0..5 {
            let mut bytes = vec![9; length];
            bytes.iter_mut().take(1).for_each(|first| *first = kind);
            all_readers(&bytes, 2, visit);
        }
    }
    for length in 0..=5 {
        strings(&RECORD_BYTES, length, &mut |bytes| with_starts(&[0, 0], bytes, visit));
    }
    strings(&RECORD_BYTES, 4, &mut |bytes| with_starts(&[0, 1, 0, 2, 3], bytes, visit));
    counts(visit);
}

/// Records behind the starts of kinds 1 and 3.
fn with_starts(base: &[u8], records: &[u8], visit: &mut Visit) {
    let unowned = [&[1], base, records].concat();
    let owned = [&[3][..], &[0x80; 32], base, records].concat();
    for bytes in [unowned, owned] {
        for room in [0, 2] {
            let reader = READERS[0];
            visit(Question::Read { reader, src: bytes.clone(), lent: some_room(room) });
        }
    }
}

/// Counts at every boundary, as they are and too long, and counts of one to twelve bytes, at every epoch and base.
fn counts(visit: &mut Visit) {
    for count in numbers::COUNTS {
        for extra in 0..6 {
            let mut bytes = convert::varint(count);
            for _ in 0..extra {
                convert::pad(&mut bytes);
            }
            with_starts(&[0, 5], &[&[0, 7], &bytes[..]].concat(), visit);
        }
    }
    for length in 1..=12 {
        for (inner, last) in [0x80, 0x81, 0xff].into_iter().flat_map(|inner| encodings::BYTES.map(|last| (inner, last))) {
            let mut bytes = vec![inner; length];
            bytes[length - 1] = last;
            with_starts(&[0, 5], &[&[0, 7], &bytes[..]].concat(), visit);
        }
    }
    for base in numbers::EPOCHS {
        for (first, second) in numbers::EPOCHS.into_iter().flat_map(|first| numbers::EPOCHS.map(|second| (first, second))) {
            let records = [&first.to_be_bytes()[..], &[1], &second.to_be_bytes(), &[2]].concat();
            with_starts(&base.to_be_bytes(), &records, visit);
        }
    }
}

/// A random encoding to a random reader, mostly the one for all kinds.
pub fn random(random: &mut Random, most: usize) -> Question {
    let reader = if random.one_in(2) { READERS[0] } else { random.pick(&READERS) };
    let src = encodings::any(random, most);
    let lent = lent::exact_tables(random, src.len() / 3);
    fit(random, Question::Read { reader, src, lent })
}
