//! The repair of old flag bytes as document 02 (iv) says it, once more and apart from the library: the original has no such call.
use crate::values::Repaired;
use std::collections::BTreeMap;
use std::ops::Bound::{Excluded, Unbounded};

/// The changes by their numbers.
pub const RE_ENCODED: u8 = 1;
pub const TOO_LARGE: u8 = 2;
pub const NOT_ABOVE_BASE: u8 = 3;
pub const REPLACED: u8 = 4;
pub const TAIL_CUT: u8 = 5;
pub const MOVED: u8 = 6;
pub const KIND_CHANGED: u8 = 7;

/// A record as it stands in old bytes.
struct Record {
    offset: usize,
    epoch: u16,
    count: u128,
    /// How many bytes the count has.
    length: usize,
}

/// Records by their epochs, each with its offset and its count.
type Map = BTreeMap<u16, (usize, u128)>;

/// The canonical bytes and the changes, or the refusal's number.
pub fn repair(src: &[u8]) -> Result<Repaired, u32> {
    let Some(kind) = src.first() else { return Ok(Repaired::default()) };
    let start = match kind {
        0 | 1 => 3,
        2 | 3 => 35,
        _ => return Err(1),
    };
    let head = src.get(..start).ok_or(2u32)?;
    Ok(match kind {
        0 | 2 => one_epoch(head, src.len()),
        _ => several_epochs(head, src),
    })
}

/// Flags of kinds 0 and 2: what lies behind their head is cut.
fn one_epoch(head: &[u8], length: usize) -> Repaired {
    let lines = if length > head.len() { vec![(head.len(), TAIL_CUT)] } else { vec![] };
    answer(head.to_vec(), &lines)
}

/// Flags of kinds 1 and 3.
fn several_epochs(head: &[u8], src: &[u8]) -> Repaired {
    let base = u16::from_be_bytes([head[head.len() - 2], head[head.len() - 1]]);
    let (records, tail) = records(src, head.len());
    let mut map = Map::new();
    for record in records.iter().filter(|record| record.count <= u32::MAX.into() && record.epoch > base) {
        map.insert(record.epoch, (record.offset, record.count));
    }
    let mut out = head.to_vec();
    let mut lines = Vec::new();
    if map.is_empty() {
        out[0] -= 1;
        lines.push((0, KIND_CHANGED));
    }
    for record in &records {
        lines.extend(changes(record, base, &map).into_iter().map(|change| (record.offset, change)));
    }
    lines.extend(tail.map(|offset| (offset, TAIL_CUT)));
    for (epoch, (_, count)) in map {
        out.extend(epoch.to_be_bytes());
        out.extend(varint(count));
    }
    answer(out, &lines)
}

/// The records from a place on, and where the one starts that ends the reading, if one does.
fn records(src: &[u8], start: usize) -> (Vec<Record>, Option<usize>) {
    let (mut records, mut offset) = (Vec::new(), start);
    while offset < src.len() {
        let Some(record) = record(src, offset) else { return (records, Some(offset)) };
        offset += 2 + record.length;
        records.push(record);
    }
    (records, None)
}

/// The record at a place, if it is complete and its count ends within ten bytes.
fn record(src: &[u8], offset: usize) -> Option<Record> {
    let epoch = u16::from_be_bytes([*src.get(offset)?, *src.get(offset + 1)?]);
    let bytes = &src[offset + 2..];
    let length = 1 + bytes.iter().take(10).position(|byte| *byte < 0x80)?;
    let count = bytes[..length].iter().rev().fold(0, |count, byte| count * 128 + u128::from(byte % 128));
    Some(Record { offset, epoch, count, length })
}

/// The changes of a record: one where it is dropped, up to two where it stands in the map.
fn changes(record: &Record, base: u16, map: &Map) -> Vec<u8> {
    if record.count > u32::MAX.into() {
        return vec![TOO_LARGE];
    }
    if record.epoch <= base {
        return vec![NOT_ABOVE_BASE];
    }
    if map[&record.epoch].0 != record.offset {
        return vec![REPLACED];
    }
    let longer = record.length > varint(record.count).len();
    let mut higher = map.range((Excluded(record.epoch), Unbounded));
    let behind_a_higher_one = higher.any(|(_, (offset, _))| *offset < record.offset);
    let either = [(longer, RE_ENCODED), (behind_a_higher_one, MOVED)];
    either.into_iter().filter(|(holds, _)| *holds).map(|(_, change)| change).collect()
}

/// The fewest bytes of a count.
fn varint(mut count: u128) -> Vec<u8> {
    let mut bytes = Vec::new();
    while count >= 128 {
        bytes.push((count % 128) as u8 + 128);
        count /= 128;
    }
    bytes.push(count as u8);
    bytes
}

/// Bytes, and lines in two tables.
fn answer(out: Vec<u8>, lines: &[(usize, u8)]) -> Repaired {
    let (offsets, changes) = lines.iter().copied().unzip();
    Repaired { out, offsets, changes }
}
