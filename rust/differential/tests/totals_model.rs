//! The model of totals, held to examples that were worked out by hand and to what document 02 (vii) says of recounts; and the library against
//! the model where there are many rows.
use differential::boundary;
use differential::generate::{flags, lent, numbers, totals};
use differential::placed;
use differential::question::{Change, Question, Reply};
use differential::random::Random;
use differential::totals::room_for;
use differential::totals_model::{self, Map};
use differential::values::*;

type Row = (Id, u16, u64);

const A: Id = [1; 32];
const B: Id = [2; 32];

/// Flags at base 5 under an owner, unowned under zeros.
fn flags_of(owner: Id, records: &[(u16, u32)]) -> Flags {
    Flags::new(if owner == ZEROS { 1 } else { 3 }, 5, owner, records)
}

/// What the model makes of rows, in a table that holds exactly these.
fn replaced(rows: &[Row], old: Option<&Flags>, new: Option<&Flags>) -> Result<Rows<u64>, u32> {
    let Question::TotalsReplace(change) = room_for(rows, old, new, [rows.len(); 3]) else { panic!("a change") };
    totals_model::replace(&change)
}

#[test]
fn examples_by_hand() {
    let (ours, theirs) = (flags_of(A, &[(7, 10), (9, 5)]), flags_of(A, &[(7, 4), (8, 6), (10, 0)]));
    let after = |rows: &[Row]| Ok(Rows::of(rows));
    assert_eq!(replaced(&[], None, None), after(&[]));
    assert_eq!(replaced(&[], None, Some(&ours)), after(&[(A, 7, 10), (A, 9, 5)]));
    assert_eq!(replaced(&[(A, 7, 10), (A, 9, 6)], Some(&ours), Some(&theirs)), after(&[(A, 7, 4), (A, 8, 6), (A, 9, 1)]));
    assert_eq!(replaced(&[(A, 7, 10), (A, 9, 5)], Some(&ours), None), after(&[]));
    assert_eq!(replaced(&[(A, 7, 10), (B, 7, 1)], Some(&flags_of(A, &[(7, 10)])), Some(&flags_of(B, &[(7, 10)]))), after(&[(B, 7, 11)]));
    assert_eq!(replaced(&[(A, 7, 1)], None, Some(&flags_of(ZEROS, &[(7, 2)]))), after(&[(ZEROS, 7, 2), (A, 7, 1)]));
    assert_eq!(replaced(&[(A, 7, 1)], Some(&Flags::new(0, 5, A, &[])), Some(&Flags::new(2, 7, A, &[]))), after(&[(A, 7, 1)]));
    // the owner bytes of unowned flags are not read
    assert_eq!(replaced(&[(ZEROS, 7, 2)], Some(&Flags::new(1, 5, A, &[(7, 2)])), None), after(&[]));
}

#[test]
fn refusals_by_hand() {
    let ten = flags_of(A, &[(7, 10)]);
    assert_eq!(replaced(&[(A, 7, 9)], Some(&ten), None), Err(14));
    assert_eq!(replaced(&[], Some(&ten), Some(&ten)), Err(14));
    assert_eq!(replaced(&[], Some(&flags_of(A, &[(7, 0)])), None), Ok(Rows::default()));
    assert_eq!(replaced(&[(A, 7, u64::MAX - 9)], None, Some(&ten)), Err(6));
    assert_eq!(replaced(&[(A, 7, u64::MAX - 10)], None, Some(&ten)), Ok(Rows::of(&[(A, 7, u64::MAX)])));
    assert_eq!(replaced(&[(A, 7, u64::MAX)], Some(&ten), Some(&ten)), Ok(Rows::of(&[(A, 7, u64::MAX)])));
    assert_eq!(replaced(&[(A, 6, 9), (A, 7, u64::MAX)], Some(&flags_of(A, &[(6, 10)])), Some(&ten)), Err(14), "before 6");
    for bad in [&[(A, 7, 0)][..], &[(A, 7, 1), (A, 7, 1)], &[(A, 8, 1), (A, 7, 1)], &[(B, 7, 1), (A, 8, 1)]] {
        assert_eq!(replaced(bad, None, None), Err(11));
    }
    for bad in [flags_of(A, &[]), flags_of(A, &[(5, 1)]), flags_of(A, &[(8, 1), (7, 1)]), Flags::new(4, 5, A, &[])] {
        assert_eq!(replaced(&[], Some(&bad), None), Err(11), "{bad:?}");
        assert_eq!(replaced(&[], None, Some(&bad)), Err(11), "{bad:?}");
    }
    let Question::TotalsReplace(change) = room_for(&[(A, 7, 1)], None, None, [1; 3]) else { panic!("a change") };
    assert_eq!(totals_model::replace(&Change { rows: 2, ..change }), Err(11));
}

/// The sum of counts at each pair, said pair by pair.
#[test]
fn a_recount_sums() {
    let mut random = Random::new(1);
    for _ in 0..500 {
        let elements: Vec<_> = (0..random.below(12)).map(|_| (!random.one_in(5)).then(|| flags::proper(&mut random, 6))).collect();
        let map = totals_model::recount(elements.iter().map(Option::as_ref));
        assert!(map.values().all(|total| *total > 0));
        let sum = |owner: Id, epoch: u16| -> u128 {
            let under = elements.iter().flatten().filter(|flags| flags.identifier() == owner);
            under.flat_map(Flags::records).filter(|record| record.0 == epoch).map(|record| u128::from(record.1)).sum()
        };
        for flags in elements.iter().flatten() {
            for (epoch, _) in flags.records() {
                let pair = (flags.identifier(), epoch);
                assert_eq!(map.get(&pair).copied().unwrap_or(0), sum(pair.0, epoch));
            }
        }
    }
}

/// If the table was the recount with the old flags, it is afterwards the recount with the new; and two changes may come in either order.
#[test]
fn recounts_follow_changes() {
    let mut random = Random::new(2);
    let some = |random: &mut Random| (!random.one_in(4)).then(|| flags::proper(random, 5));
    let table = |elements: &[Option<Flags>]| totals_model::rows(&totals_model::recount(elements.iter().map(Option::as_ref)));
    let rows = |table: &Rows<u64>| table.first(table.room()).collect::<Vec<_>>();
    for _ in 0..2_000 {
        let before: Vec<_> = (0..2 + random.below(4)).map(|_| some(&mut random)).collect();
        let [first, second] = [some(&mut random), some(&mut random)];
        let (mut one, mut both) = (before.clone(), before.clone());
        one[0].clone_from(&first);
        (both[0], both[1]) = (first.clone(), second.clone());
        let change = |start: &[Row], place: usize, new: &Option<Flags>| replaced(start, before[place].as_ref(), new.as_ref());
        let after_first = change(&rows(&table(&before)), 0, &first);
        assert_eq!(after_first, Ok(table(&one)));
        let after_second = change(&rows(&table(&before)), 1, &second).expect("it is covered");
        assert_eq!(change(&rows(&table(&one)), 1, &second), Ok(table(&both)));
        assert_eq!(change(&rows(&after_second), 0, &first), Ok(table(&both)));
    }
}

/// Random changes have every refusal, and most are accepted.
#[test]
fn random_changes_have_all_refusals() {
    let mut random = Random::new(3);
    let changes: Vec<_> = (0..20_000).map(|_| totals::any(&mut random, 40)).collect();
    let refusals = changes.iter().map(|change| placed::totals(totals_model::replace(change), &change.table).refusal());
    let refusals: Vec<_> = refusals.collect();
    for (refusal, least) in [(0, 10_000), (6, 200), (10, 200), (11, 200), (14, 200)] {
        let met = refusals.iter().filter(|met| **met == refusal).count();
        assert!(met > least, "{refusal} is met {met} times");
    }
}

/// The library answers as the model.
fn library_agrees(change: Change) -> usize {
    let expected = placed::totals(totals_model::replace(&change), &change.table);
    let rows = change.rows;
    let found = boundary::ask(&Question::TotalsReplace(change));
    assert!(found == expected, "{rows} rows");
    match found {
        Reply::Totals { answer, .. } => answer.count as usize,
        other => panic!("{other:?}"),
    }
}

/// Many rows under few owners or many, with changes that touch one, many or all rows of an owner.
#[test]
fn many_rows() {
    let mut random = Random::new(4);
    for (owners, epochs) in [(1usize, 20_000u16), (40, 500), (6_000, 3)] {
        let owner = |place: usize| -> Id {
            let mut id = [7; 32];
            id[24..].copy_from_slice(&(place as u64).to_be_bytes());
            id
        };
        let pairs = (0..owners).flat_map(|place| (1..=epochs).map(move |epoch| (owner(place), epoch)));
        let map: Map = pairs.map(|pair| (pair, 1 + random.below(1_000) as u128)).collect();
        let rows = totals_model::rows(&map);
        for place in [0, owners / 2, owners - 1] {
            let records = |step: usize, random: &mut Random| -> Vec<_> {
                (1..=epochs)
                    .step_by(step)
                    .map(|epoch| (epoch, map[&(owner(place), epoch)].min(random.below(2_000) as u128) as u32))
                    .collect()
            };
            let all: Vec<_> = (1..=epochs).map(|epoch| (epoch, map[&(owner(place), epoch)] as u32)).collect();
            let old = Flags::new(3, 0, owner(place), &all);
            for (old, new) in [
                (Some(Flags::new(3, 0, owner(place), &records(3, &mut random))), None),
                (Some(old.clone()), None),
                (Some(old.clone()), Some(Flags::new(3, 0, owner(place), &records(2, &mut random)))),
                (Some(old), Some(Flags::new(1, 0, numbers::owner(&mut random), &records(1, &mut random)))),
                (None, Some(Flags::new(3, 0, owner(owners + place), &records(1, &mut random)))),
            ] {
                let more = new.as_ref().map_or(0, |flags| flags.head.records);
                let table = lent::exact_totals(&mut random, map.len() + more + 1).with(&rows);
                let (old_present, new_present) = (old.is_some().into(), new.is_some().into());
                let (old, new) = (old.unwrap_or_default(), new.unwrap_or_default());
                library_agrees(Change { rows: map.len(), table, old_present, old, new_present, new });
            }
        }
    }
}
