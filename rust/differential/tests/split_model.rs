//! The model of splitting, held to examples that were worked out by hand and to the original, at boundaries and at random where that has an answer;
//! and the library against the model at the top three amounts, where the original has none.
use differential::boundary;
use differential::convert;
use differential::generate::numbers::COUNTS;
use differential::groups::removals;
use differential::model;
use differential::question::{Question, Reply, Split};
use differential::random::Random;
use differential::split_model::{overflows, split};
use differential::values::*;

const TOP_THREE: [u32; 3] = [4_294_967_293, 4_294_967_294, 4_294_967_295];

/// Flags at base 5: unowned or owned, with records or none.
fn at_five(owned: bool, records: &[(u16, u32)]) -> Flags {
    Flags::new(u8::from(!records.is_empty()) + 2 * u8::from(owned), 5, [7; 32], records)
}

/// All flags of one, two and three records with boundary counts, and none.
fn every_flags() -> impl Iterator<Item = Flags> {
    let pairs = COUNTS.into_iter().flat_map(|first| COUNTS.map(|second| (first, second)));
    let some = pairs.flat_map(|(first, second)| {
        [vec![(7, first)], vec![(7, first), (9, second)], vec![(6, second), (7, 3), (65_535, first)]].map(|records| at_five(true, &records))
    });
    some.chain([at_five(false, &[]), at_five(true, &[])])
}

/// The sections by epoch.
fn sections(removal: &Removal) -> Vec<(u16, u32)> {
    removal.rows().map(|(_, epoch, bytes)| (epoch, bytes)).collect()
}

#[test]
fn examples_by_hand() {
    let of = |records: &[(u16, u32)], value| sections(&split(&at_five(false, records), value));
    assert_eq!(of(&[(7, 10), (9, 5)], 6), [(7, 4), (9, 2)]);
    assert_eq!(of(&[(7, 10), (9, 5)], 20), [(5, 11), (7, 7), (9, 2)]);
    assert_eq!(of(&[(7, 10), (9, 3)], 1), [(7, 1), (9, 0)]);
    assert_eq!(split(&at_five(false, &[(7, 10)]), 0), Removal::default());
    for value in TOP_THREE {
        assert_eq!(of(&[(7, 1)], value), [(5, value), (7, 0)]);
        assert_eq!(of(&[(7, 10)], value), [(5, value - 7), (7, 7)]);
        assert_eq!(of(&[(7, 10), (9, u32::MAX)], value), [(7, value - 4_294_967_292), (9, 4_294_967_292)]);
        assert_eq!(of(&[(7, u32::MAX)], value), [(5, value - 4_294_967_292), (7, 4_294_967_292)]);
    }
}

#[test]
fn where_the_original_overflows() {
    for value in COUNTS {
        assert_eq!(overflows(&at_five(false, &[(7, 1)]), value), TOP_THREE.contains(&value));
        assert!(!overflows(&at_five(true, &[]), value));
    }
}

/// Checks the model against the original, where that has an answer; whether it has one is handed back.
fn is_the_original(flags: &Flags, value: u32) -> bool {
    if overflows(flags, value) {
        return false;
    }
    let (_, original) = convert::flags(flags).split_storage_removed_bytes(0, value);
    assert_eq!(split(flags, value), convert::from_removal(&original), "{flags:?}, {value} bytes");
    true
}

#[test]
fn the_model_is_the_original_at_boundaries() {
    for flags in every_flags() {
        let answered = COUNTS.into_iter().filter(|value| is_the_original(&flags, *value)).count();
        assert_eq!(answered, if flags.head.records > 0 { COUNTS.len() - 3 } else { COUNTS.len() });
    }
}

#[test]
fn the_model_is_the_original_at_random() {
    let mut random = Random::new(20261117);
    let mut answered = 0;
    for _ in 0..100_000 {
        let asked = removals::both(&mut random, 40);
        if model::flags_fault(&asked.flags).is_none() && is_the_original(&asked.flags, asked.value) {
            answered += 1;
        }
    }
    assert!(answered > 80_000, "{answered} of 100,000");
}

#[test]
fn the_library_is_the_model_at_the_top_three() {
    for flags in every_flags() {
        for value in TOP_THREE {
            let rows = Rows { ids: vec![[9; 32]; 4], epochs: vec![9; 4], bytes: vec![9; 4] };
            let asked = Question::SplitValue(Split { flags: flags.clone(), bytes: value, rows });
            let Reply::ValueSplit { answer, rows } = boundary::ask(&asked) else { panic!("a split answers a split") };
            let model = split(&flags, value);
            assert_eq!((answer.refusal, answer.removal), (0, model.state), "{flags:?}, {value} bytes");
            assert_eq!(rows.first(answer.removal.rows).collect::<Vec<_>>(), model.rows().collect::<Vec<_>>(), "{flags:?}, {value} bytes");
            assert_eq!(answer.visited, flags.head.records, "every record is asked");
        }
    }
}
