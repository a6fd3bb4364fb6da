//! The model of a repair, held to examples that were worked out by hand and to the original's reader; and the library against the model where
//! there are many records.
use differential::boundary;
use differential::convert;
use differential::generate::{encodings, old};
use differential::placed;
use differential::question::{Question, Reply};
use differential::random::Random;
use differential::repair_model::{self, *};
use differential::repairs;
use differential::values::*;
use grovedb_epoch_based_storage_flags::StorageFlags;
use std::collections::{BTreeMap, BTreeSet};

/// Old bytes, what they are repaired to, and the lines.
type Example = (&'static str, &'static str, &'static [(usize, u8)]);

const EXAMPLES: [Example; 24] = [
    ("", "", &[]),
    ("000005", "000005", &[]),
    ("0100050007ac02", "0100050007ac02", &[]),
    ("00000500", "000005", &[(3, TAIL_CUT)]),
    ("010005", "000005", &[(0, KIND_CHANGED)]),
    ("010005 00", "000005", &[(0, KIND_CHANGED), (3, TAIL_CUT)]),
    ("010005 000501", "000005", &[(0, KIND_CHANGED), (3, NOT_ABOVE_BASE)]),
    ("010005 00078100", "010005000701", &[(3, RE_ENCODED)]),
    ("010005 0007 80808080808080808000", "010005000700", &[(3, RE_ENCODED)]),
    ("010005 0007 ffffffff0f", "0100050007ffffffff0f", &[]),
    ("010005 0007 8080808010", "000005", &[(0, KIND_CHANGED), (3, TOO_LARGE)]),
    ("010005 0007 80808080808080808001 000801", "010005000801", &[(3, TOO_LARGE)]),
    ("010005 0007 8080808080808080807f 000801", "010005000801", &[(3, TOO_LARGE)]),
    ("010005 000801 0007 8080808080808080808000 000901", "010005000801", &[(6, TAIL_CUT)]),
    ("010005 000701 000702", "010005000702", &[(3, REPLACED)]),
    ("010005 000701 000702 00078080808010", "010005000702", &[(3, REPLACED), (9, TOO_LARGE)]),
    ("010005 00058080808010 000701", "010005000701", &[(3, TOO_LARGE)]),
    ("010005 000901 000702", "010005000702000901", &[(6, MOVED)]),
    ("010005 000901 00078200", "010005000702000901", &[(6, RE_ENCODED), (6, MOVED)]),
    ("010005 000901 000802 000903", "010005000802000903", &[(3, REPLACED)]),
    ("010005 000901 000702 000803 0008", "010005000702000803000901", &[(6, MOVED), (9, MOVED), (12, TAIL_CUT)]),
    (
        "010005 000301 00098100 000802 00098300 00",
        "010005000802000903",
        &[(3, NOT_ABOVE_BASE), (6, REPLACED), (13, RE_ENCODED), (17, TAIL_CUT)],
    ),
    ("01ffff ffff01", "00ffff", &[(0, KIND_CHANGED), (3, NOT_ABOVE_BASE)]),
    ("010000 ffff01 000102 000001", "010000000102ffff01", &[(6, MOVED), (9, NOT_ABOVE_BASE)]),
];

/// A repair as a test says it.
fn repaired(out: Vec<u8>, lines: &[(usize, u8)]) -> Repaired {
    let (offsets, changes) = lines.iter().copied().unzip();
    Repaired { out, offsets, changes }
}

/// Bytes of kinds 0 and 1 with an owner.
fn owned(bytes: &[u8]) -> Vec<u8> {
    let Some(kind) = bytes.first() else { return vec![] };
    [&[kind + 2][..], &[0xa5; 32], &bytes[1..]].concat()
}

#[test]
fn examples_by_hand() {
    for (old, new, lines) in EXAMPLES {
        let (old, new) = (convert::bytes(old), convert::bytes(new));
        let later: Vec<_> = lines.iter().map(|line| (if line.1 == KIND_CHANGED { 0 } else { line.0 + 32 }, line.1)).collect();
        assert_eq!(repair_model::repair(&owned(&old)), Ok(repaired(owned(&new), &later)), "{old:02x?} with an owner");
        assert_eq!(repair_model::repair(&old), Ok(repaired(new, lines)), "{old:02x?}");
    }
}

#[test]
fn refused_heads() {
    for kind in 4..=255 {
        assert_eq!(repair_model::repair(&[kind]), Err(1));
        assert_eq!(repair_model::repair(&[&[kind][..], &[0; 40]].concat()), Err(1));
    }
    for (kind, start) in [(0, 3), (1, 3), (2, 35), (3, 35)] {
        let bytes = [&[kind][..], &[9; 34]].concat();
        assert!((1..start).all(|length| repair_model::repair(&bytes[..length]) == Err(2)), "{kind}");
        assert!(repair_model::repair(&bytes[..start]).is_ok(), "{kind}");
    }
}

/// What the original writes comes back as it is.
#[test]
fn canonical_bytes() {
    let mut random = Random::new(1);
    for _ in 0..4_000 {
        let bytes = encodings::good(&mut random, 40);
        assert_eq!(repair_model::repair(&bytes), Ok(repaired(bytes.clone(), &[])), "{bytes:02x?}");
    }
}

/// The original reads every answer, and a second repair changes nothing. The random bytes have every change.
#[test]
fn answers_are_canonical() {
    let mut random = Random::new(2);
    let mut listed = BTreeMap::new();
    for _ in 0..20_000 {
        let old = old::any(&mut random, 40);
        let Ok(answer) = repair_model::repair(&old) else { continue };
        let read = StorageFlags::deserialize(&answer.out);
        assert!(read.is_ok_and(|flags| flags.is_some() != old.is_empty()), "{old:02x?}");
        assert_eq!(repair_model::repair(&answer.out), Ok(repaired(answer.out.clone(), &[])), "{old:02x?}");
        assert!(answer.offsets.is_sorted(), "{old:02x?}");
        // canonical bytes are those that the original reads
        assert_eq!(StorageFlags::deserialize(&old).is_ok(), answer.changes.is_empty(), "{old:02x?}");
        answer.changes.iter().for_each(|change| *listed.entry(*change).or_insert(0) += 1);
    }
    assert!((RE_ENCODED..=KIND_CHANGED).all(|change| listed[&change] > 500), "random bytes lack a change: {listed:?}");
}

/// The original reads the map that inserting one record after another makes.
#[test]
fn the_map_is_read() {
    let mut random = Random::new(3);
    for _ in 0..4_000 {
        let base = random.below(20) as u16;
        let records: Vec<_> = (0..random.below(30)).map(|_| (random.below(40) as u16, random.bits() as u32 >> random.below(32))).collect();
        let mut old = [&[1], &base.to_be_bytes()[..]].concat();
        for (epoch, count) in &records {
            let mut count = convert::varint(*count);
            (0..random.below(3)).for_each(|_| convert::pad(&mut count));
            old.extend(convert::record(*epoch, &count));
        }
        let map: BTreeMap<u16, u32> = records.into_iter().filter(|record| record.0 > base).collect();
        let flags = if map.is_empty() { StorageFlags::SingleEpoch(base) } else { StorageFlags::MultiEpoch(base, map) };
        let out = repair_model::repair(&old).expect("the head is complete").out;
        assert_eq!(StorageFlags::deserialize(&out).ok().flatten(), Some(flags), "{old:02x?}");
    }
}

/// The library answers as the model.
fn library_agrees(src: Vec<u8>) {
    let question = repairs::ample(src);
    let Question::Repair { src, lent } = &question else { return };
    assert!(boundary::ask(&question) == placed::repaired(repair_model::repair(src), lent), "{} bytes", src.len());
}

/// Records of all epochs, scattered and each several times, some of them longer than minimal.
#[test]
fn many_records() {
    for (kind, records) in [(1, 16_384), (3, 65_535), (1, 200_000)] {
        let head = Flags::new(kind, 3, [7; 32], &[]);
        let mut old = convert::start(&head);
        for place in 0..records {
            let mut count = convert::varint((place as u32).wrapping_mul(0x9e37_79b1) >> (place % 32));
            (0..place % 5 / 3).for_each(|_| convert::pad(&mut count));
            // an odd factor, so that all epochs come before one comes again
            old.extend(convert::record((place as u16).wrapping_mul(40_503), &count));
        }
        library_agrees(old);
    }
}

/// All epochs in order come back as they are; in falling order all but the first are moved.
#[test]
fn all_epochs() {
    let rising: Vec<_> = (1..=u16::MAX).map(|epoch| convert::record(epoch, &[5])).collect();
    let good = [vec![1, 0, 0], rising.concat()].concat();
    let falling = [vec![1, 0, 0], rising.iter().rev().flatten().copied().collect()].concat();
    let answer = |src: Vec<u8>| match boundary::ask(&repairs::ample(src)) {
        Reply::Repaired { answer, lent } => {
            (answer.lines, lent.out[..answer.bytes] == good, lent.changes[..answer.lines].iter().copied().collect())
        }
        other => panic!("{other:?}"),
    };
    assert_eq!(answer(good.clone()), (0, true, BTreeSet::new()));
    assert_eq!(answer(falling), (65_534, true, BTreeSet::from([MOVED])));
}
