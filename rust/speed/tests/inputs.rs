//! The inputs are what the report says of them.
use differential::random::Random;
use differential::values::Flags;
use speed::inputs::{make_fit, pair, single, Pair};
use speed::plain::fields::length;
use speed::row::{Bases, Counts, Epochs};
use std::collections::BTreeSet;

/// Some pairs of so many records each.
fn pairs(counts: Counts, bases: Bases, epochs: Epochs, records: usize) -> Vec<Pair> {
    let mut random = Random::new(5);
    (0..64).map(|place| pair(&mut random, counts, bases, epochs, records, place)).collect()
}

fn epochs(flags: &Flags) -> BTreeSet<u16> {
    flags.records().map(|record| record.0).collect()
}

/// Flags of so many records that rise from above the base, of kind 1 or 3.
fn proper(flags: &Flags, records: usize) -> bool {
    let held: Vec<u16> = flags.records().map(|record| record.0).collect();
    let rising = held[0] > flags.head.base && held.windows(2).all(|two| two[0] < two[1]);
    rising && held.len() == records && matches!(flags.head.kind, 1 | 3)
}

#[test]
fn counts_have_their_lengths() {
    for (counts, lengths) in [(Counts::OneByte, 1..=1), (Counts::Mixed, 1..=5), (Counts::FiveBytes, 5..=5)] {
        let flags = single(&mut Random::new(4), counts, 1_024, 0);
        let met: BTreeSet<usize> = flags.records().map(|record| length(record.1)).collect();
        assert!(proper(&flags, 1_024) && met.into_iter().eq(lengths));
    }
}

#[test]
fn half_are_owned() {
    let mut random = Random::new(4);
    let kinds: Vec<u8> = (0..4).map(|place| single(&mut random, Counts::Mixed, 8, place).head.kind).collect();
    assert_eq!(kinds, [1, 3, 1, 3]);
    let kinds: Vec<(u8, u8)> = pairs(Counts::Mixed, Bases::Equal, Epochs::Apart, 8)[..4]
        .iter()
        .map(|pair| {
            assert!(pair.ours.head.kind != pair.theirs.head.kind || pair.ours.head.owner == pair.theirs.head.owner);
            (pair.ours.head.kind, pair.theirs.head.kind)
        })
        .collect();
    assert_eq!(kinds, [(1, 1), (3, 1), (1, 3), (3, 3)]);
}

#[test]
fn epochs_lie_as_they_should() {
    for records in [8, 64, 1_024, 16_384] {
        for &bases in Bases::ALL {
            for &relation in Epochs::ALL {
                for pair in pairs(Counts::FiveBytes, bases, relation, records).iter().take(4) {
                    assert!(proper(&pair.ours, records) && proper(&pair.theirs, records));
                    let (ours, theirs) = (epochs(&pair.ours), epochs(&pair.theirs));
                    let common = ours.intersection(&theirs).count();
                    match relation {
                        Epochs::Overlapping => assert!(common >= records / 5 && common <= records / 2),
                        _ => assert_eq!(common, 0),
                    }
                    if relation == Epochs::Apart {
                        assert!(ours.last() < theirs.first());
                    }
                }
            }
        }
    }
}

#[test]
fn bases_stand_among_our_epochs() {
    for pair in pairs(Counts::Mixed, Bases::Equal, Epochs::Disjoint, 64) {
        assert_eq!(pair.ours.head.base, pair.theirs.head.base);
    }
    let higher = pairs(Counts::FiveBytes, Bases::Higher, Epochs::Disjoint, 64);
    for pair in &higher {
        let below = epochs(&pair.ours).range(..pair.theirs.head.base).count();
        assert!((6..=32).contains(&below));
    }
    // we have a record there about every other time
    let held = |pair: &&Pair| pair.ours.records().any(|record| record.0 == pair.theirs.head.base);
    assert!((16..=48).contains(&higher.iter().filter(held).count()));
}

#[test]
fn the_amount_fits() {
    let records = [(6, u32::MAX), (7, u32::MAX), (8, 5)];
    let mut flags = Flags::new(1, 5, [0; 32], &records);
    for (epoch, amount) in [(7, 9), (8, 9), (9, 9)] {
        make_fit(&mut flags, epoch, amount);
    }
    assert_eq!(flags.tables.counts, [u32::MAX, u32::MAX - 9, 5]);
}
