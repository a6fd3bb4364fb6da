//! The repair of old flag bytes.
use super::{fit, reading, Visit};
use crate::convert;
use crate::generate::{encodings, lent, numbers, old};
use crate::question::Question;
use crate::random::Random;
use crate::repairs::ample;

/// Records at and above base 5 in each form: minimal, longer, and too large.
const FORMS: [&str; 12] = [
    "000501",
    "00058100",
    "00058080808010",
    "000601",
    "00068100",
    "00068080808010",
    "000701",
    "00078100",
    "00078080808010",
    "000801",
    "00088100",
    "00088080808010",
];

/// Every length around the fixed ones, tails over the bytes of a record, counts of every length, pairs of epochs, and up to three records.
pub fn boundaries(visit: &mut Visit) {
    for length in 0..=40 {
        for kind in [0, 1, 2, 3, 4, 255] {
            let mut src = vec![9; length];
            src.iter_mut().take(1).for_each(|first| *first = kind);
            visit(ample(src));
        }
    }
    for length in 0..=4 {
        reading::strings(&reading::RECORD_BYTES, length, &mut |tail| behind_heads(&[0, 0], tail, visit));
    }
    counts(visit);
    epochs(visit);
    sequences(visit);
}

/// All strings of up to 2 bytes, and strings of 3 over the boundary bytes. They are many, and nearly all are refused.
pub fn short_strings(visit: &mut Visit) {
    let every: Vec<u8> = (0..=255).collect();
    for length in 0..=2 {
        reading::strings(&every, length, &mut |src| visit(ample(src.to_vec())));
    }
    reading::strings(&encodings::BYTES, 3, &mut |src| visit(ample(src.to_vec())));
}

/// Some bytes behind a base, of kinds 1 and 3.
fn behind_heads(base: &[u8], records: &[u8], visit: &mut Visit) {
    visit(ample([&[1], base, records].concat()));
    visit(ample([&[3][..], &[0x80; 32], base, records].concat()));
}

/// Counts of one to twelve bytes with every last byte, before another record.
fn counts(visit: &mut Visit) {
    for length in 1..=12 {
        for (inner, last) in [0x80, 0x81, 0xff].into_iter().flat_map(|inner| (0..=0x81).map(move |last| (inner, last))) {
            let mut count = vec![inner; length];
            count[length - 1] = last;
            visit(ample([&[1, 0, 5, 0, 7], &count[..], &[0, 6, 1]].concat()));
        }
    }
}

/// Two records, whose epochs lie around the base and around each other.
fn epochs(visit: &mut Visit) {
    for base in numbers::EPOCHS {
        for (first, second) in numbers::EPOCHS.into_iter().flat_map(|first| numbers::EPOCHS.map(|second| (first, second))) {
            let records = [convert::record(first, &[1]), convert::record(second, &[2])].concat();
            visit(ample([&[1], &base.to_be_bytes()[..], &records].concat()));
        }
    }
}

/// All sequences of up to three records of some forms.
fn sequences(visit: &mut Visit) {
    let places: Vec<u8> = (0..FORMS.len() as u8).collect();
    for length in 0..=3 {
        reading::strings(&places, length, &mut |places| {
            let records = places.iter().flat_map(|place| convert::bytes(FORMS[usize::from(*place)]));
            visit(ample([1, 0, 5].into_iter().chain(records).collect()));
        });
    }
}

/// Old bytes, with room that is ample or near what is needed.
pub fn random(random: &mut Random, most: usize) -> Question {
    let src = old::any(random, most);
    let (bytes, lines) = (src.len(), src.len() / 2 + 2);
    let lent = lent::exact_repaired(random, bytes, lines);
    fit(random, Question::Repair { src, lent })
}
