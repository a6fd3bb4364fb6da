//! Repairs that show each rule of document 02 (iv), with room that is ample, exact, or one place short in a table. These stand in the list
//! of stored answers whole.
use crate::convert;
use crate::groups::Visit;
use crate::question::Question;
use crate::repair_model;
use crate::values::Repaired;

/// Old bytes at base 5 behind the kind: what stands there, first of kinds 0 and 2, then of 1 and 3.
const TAILS: [&str; 3] = ["", "00", "000701"];
const RECORDS: [&str; 31] = [
    // canonical, and none
    "",
    "0007ac02",
    "000600 00070a ffffffffffff0f",
    // re-encoded: two bytes for one, ten for one and for five
    "00078100",
    "000780808080808080808000",
    "0007ffffffff8f8080808000",
    // too large: the first count that 32 bits do not hold, in five bytes and in ten; the first that 64 do not; the most of 70 bits
    "00078080808010",
    "000780808080908080808000 000801",
    "000780808080808080808002 000801",
    "0007ffffffffffffffffff7f 000801",
    // not above base
    "000501",
    "000401 000601",
    "00058100 000601",
    // replaced, also by one that is longer than minimal, and by the last of three
    "000701 000702",
    "000701 00078200",
    "000701 000702 000703",
    // moved: behind a higher one that stays, and not behind one that does not
    "000901 000702",
    "000901 000802 000703",
    "000901 000802 000903",
    "000801 000902 000703 000804",
    "00098080808010 000701",
    // re-encoded and moved
    "000901 00078200",
    // the first line that fits; what is dropped replaces nothing
    "00058080808010 000601",
    "00078080808010 000701",
    "000701 00078080808010",
    // tail cut: in the epoch, before the count, in the count, and a count of ten bytes that go on; nothing behind it is looked at
    "000701 00",
    "000701 0008",
    "000701 000880",
    "000780",
    "000701 000880808080808080808080 000702",
    "000780808080808080808080 00",
];

/// Old bytes at base 5 of which each table is lent one place short too.
const SHORT: [&str; 3] = ["00000500", "0100050005010007", "01000500090100078200"];

/// All of them, with a place behind the answer in each table, and without; and heads that are refused.
pub fn questions(visit: &mut Visit) {
    for (kind, hex) in TAILS.map(|hex| (0, hex)).into_iter().chain(RECORDS.map(|hex| (1, hex))) {
        let behind = convert::bytes(hex);
        with_room([&[kind, 0, 5], &behind[..]].concat(), |bytes, lines| room(bytes + 1, lines + 1, lines + 1), visit);
        with_room([&[kind + 2][..], &[0x80; 32], &[0, 5], &behind].concat(), |bytes, lines| room(bytes, lines, lines), visit);
    }
    for src in SHORT.map(convert::bytes) {
        with_room(src.clone(), |bytes, lines| room(bytes - 1, lines, lines), visit);
        with_room(src.clone(), |bytes, lines| room(bytes, lines - 1, lines), visit);
        with_room(src, |bytes, lines| room(bytes, lines, lines - 1), visit);
    }
    for head in ["", "04", "ff0005", "00", "0000", "01", "0100", "0200", "03ffff"] {
        visit(ample(convert::bytes(head)));
    }
}

/// A question with more room than it needs.
pub fn ample(src: Vec<u8>) -> Question {
    let lent = room(src.len() + 1, src.len() / 2 + 3, src.len() / 2 + 3);
    Question::Repair { src, lent }
}

/// Room for so many bytes, offsets and changes, with junk that no answer has.
fn room(bytes: usize, offsets: usize, changes: usize) -> Repaired {
    Repaired { out: vec![0x5a; bytes], offsets: vec![0x5a5a; offsets], changes: vec![0x5a; changes] }
}

/// Bytes that are repaired, with room by the numbers of bytes and lines of the answer.
fn with_room(src: Vec<u8>, room: impl Fn(usize, usize) -> Repaired, visit: &mut Visit) {
    let repaired = repair_model::repair(&src).expect("the head is complete");
    let lent = room(repaired.out.len(), repaired.changes.len());
    visit(Question::Repair { src, lent });
}
