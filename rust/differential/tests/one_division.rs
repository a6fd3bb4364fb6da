//! Request (xi), run on all small flags: of all sets of sections at the base and the records' epochs exactly one has the five properties, and it
//! is what the library, at the C boundary, and the original make of the amount. docs/DIVISION.md says what the properties mean.
#![cfg(not(debug_assertions))] // less than a second in a release build, which is enough
use differential::boundary;
use differential::expected::expected;
use differential::question::{Question, Reply, Split};
use differential::values::*;
use petasunok::{MergingOwnersStrategy, StorageFlags};

/// Records above the base by their counts, the latest last.
type Counts = [u32];

/// What stands at the base, then at each record's epoch: a section of so many bytes, or none.
type Sections = [Option<u32>];

/// An epoch's place: 0 is the base, and a record's is its own, counted from 1.
fn gives(sections: &Sections, place: usize) -> u32 {
    sections[place].unwrap_or(0)
}

fn amounts(sections: &Sections) -> Vec<u32> {
    (0..sections.len()).map(|place| gives(sections, place)).collect()
}

fn later_give(sections: &Sections, place: usize) -> u32 {
    (place + 1..sections.len()).map(|later| gives(sections, later)).sum()
}

/// Whether all records later than a place are down to the smaller of their count and 3.
fn later_are_down(counts: &Counts, sections: &Sections, place: usize) -> bool {
    (place + 1..sections.len()).all(|later| gives(sections, later) + counts[later - 1].min(3) == counts[later - 1])
}

fn right_sum(_: &Counts, amount: u32, sections: &Sections) -> bool {
    sections.iter().flatten().sum::<u32>() == amount
}

fn three_kept(counts: &Counts, _: u32, sections: &Sections) -> bool {
    counts.iter().enumerate().all(|(record, count)| gives(sections, record + 1) + (*count).min(3) <= *count)
}

fn latest_first(counts: &Counts, _: u32, sections: &Sections) -> bool {
    (1..sections.len()).all(|place| gives(sections, place) == 0 || later_are_down(counts, sections, place))
}

fn base_last(counts: &Counts, _: u32, sections: &Sections) -> bool {
    gives(sections, 0) == 0 || later_are_down(counts, sections, 0)
}

fn section_where_asked(_: &Counts, amount: u32, sections: &Sections) -> bool {
    (0..sections.len()).all(|place| sections[place].is_some() == (later_give(sections, place) < amount))
}

/// The five, in the request's order.
type Property = fn(&Counts, u32, &Sections) -> bool;
const PROPERTIES: [Property; 5] = [right_sum, three_kept, latest_first, base_last, section_where_asked];

fn has(counts: &Counts, amount: u32, sections: &Sections) -> [bool; 5] {
    PROPERTIES.map(|property| property(counts, amount, sections))
}

/// All choices of a value at each of some places, the first value first.
fn choices<T: Copy>(values: &[T], places: usize) -> Vec<Vec<T>> {
    let with_each = |some: &Vec<T>| values.iter().map(|one| [&some[..], &[*one]].concat()).collect::<Vec<_>>();
    (0..places).fold(vec![vec![]], |all, _| all.iter().flat_map(with_each).collect())
}

/// One to three records with counts around 3, and amounts around all that they hold.
fn small() -> impl Iterator<Item = (Vec<u32>, u32)> {
    let counts = |records: usize, most: u32| choices(&(0..=most).collect::<Vec<_>>(), records);
    let flags = [counts(1, 8), counts(2, 7), counts(3, 5)];
    flags.into_iter().flatten().flat_map(|counts| (1..=8).map(move |amount| (counts.clone(), amount)))
}

/// All sets of sections at the base and the records' epochs, of up to one byte more than the amount each.
fn sets(counts: &Counts, amount: u32) -> Vec<Vec<Option<u32>>> {
    let bytes: Vec<_> = [None].into_iter().chain((0..=amount + 1).map(Some)).collect();
    choices(&bytes, counts.len() + 1)
}

const BASE: u16 = 5;

fn epoch(place: usize) -> u16 {
    BASE + 2 * place as u16
}

/// What the library and the original split, unowned and owned; they answer the same.
fn split(counts: &Counts, amount: u32) -> Vec<Option<u32>> {
    let records: Vec<_> = counts.iter().enumerate().map(|(record, count)| (epoch(record + 1), *count)).collect();
    let ask = |kind, owner| {
        let room = Rows { ids: vec![ZEROS; records.len() + 1], epochs: vec![0; records.len() + 1], bytes: vec![0; records.len() + 1] };
        let flags = Flags::new(kind, BASE, owner, &records);
        let question = Question::SplitValue(Split { flags, bytes: amount, rows: room });
        let reply = boundary::ask(&question);
        assert_eq!(reply, expected(&question).reply);
        let Reply::ValueSplit { answer, rows } = reply else { panic!("a split answers a split") };
        assert_eq!(answer.refusal, 0);
        let removal = Removal { state: answer.removal, rows };
        assert!(removal.rows().all(|(id, ..)| id == owner));
        let at = |place| removal.rows().find(|row| row.1 == epoch(place)).map(|row| row.2);
        (0..=counts.len()).map(at).collect::<Vec<_>>()
    };
    let unowned = ask(1, ZEROS);
    assert_eq!(unowned, ask(3, [7; 32]));
    unowned
}

#[test]
fn exactly_one_set_is_fair_and_it_is_the_split() {
    let (mut cases, mut tried) = (0, 0);
    for (counts, amount) in small() {
        let mut sets = sets(&counts, amount);
        cases += 1;
        tried += sets.len();
        sets.retain(|sections| has(&counts, amount, sections) == [true; 5]);
        assert_eq!(sets, [split(&counts, amount)], "{counts:?}, {amount} bytes");
    }
    assert_eq!((cases, tried), (2_312, 8_894_124), "docs/DIVISION.md has these figures");
}

#[test]
fn the_first_four_fix_what_each_epoch_gives() {
    for (counts, amount) in small() {
        let one = amounts(&split(&counts, amount));
        for sections in sets(&counts, amount) {
            if has(&counts, amount, &sections)[..4] == [true; 4] {
                assert_eq!(amounts(&sections), one, "{counts:?}, {amount} bytes");
            }
        }
    }
}

/// For each property the example of the page and of the proof: counts, an amount, the split, and a set that has all others.
#[test]
fn none_of_the_five_follows_from_the_others() {
    let examples: [(&Counts, u32, &Sections, &Sections); 5] = [
        (&[4], 2, &[Some(1), Some(1)], &[Some(2), Some(1)]),
        (&[4], 2, &[Some(1), Some(1)], &[None, Some(2)]),
        (&[4, 4], 1, &[None, None, Some(1)], &[None, Some(1), Some(0)]),
        (&[4], 1, &[None, Some(1)], &[Some(1), Some(0)]),
        (&[10, 3], 1, &[None, Some(1), Some(0)], &[None, Some(1), None]),
    ];
    for (lacking, (counts, amount, fair, another)) in examples.into_iter().enumerate() {
        let mut others = [true; 5];
        others[lacking] = false;
        assert_eq!(has(counts, amount, another), others);
        assert_eq!(split(counts, amount), fair);
    }
}

#[test]
fn a_larger_amount_takes_no_less_from_any_epoch() {
    for (counts, amount) in small() {
        let (less, more) = (amounts(&split(&counts, amount)), amounts(&split(&counts, amount + 1)));
        assert!(less.iter().zip(&more).all(|(less, more)| less <= more), "{counts:?}, {amount} bytes");
    }
}

/// The worked example of the page: {7:10, 8:9, 9:2} there, the same counts here.
#[test]
fn the_worked_example() {
    let divided = [
        (1, [None, None, Some(1), Some(0)]),
        (6, [None, None, Some(6), Some(0)]),
        (7, [None, Some(1), Some(6), Some(0)]),
        (10, [None, Some(4), Some(6), Some(0)]),
        (13, [None, Some(7), Some(6), Some(0)]),
        (14, [Some(1), Some(7), Some(6), Some(0)]),
        (20, [Some(7), Some(7), Some(6), Some(0)]),
    ];
    for (amount, sections) in divided {
        assert_eq!(split(&[10, 9, 2], amount), sections, "{amount} bytes");
    }
}

/// What its merge leaves: two records are dropped, also the one whose section is 0.
#[test]
fn the_worked_example_merged() {
    let flags = StorageFlags::MultiEpoch(5, [(7, 10), (8, 9), (9, 2)].into());
    let removed = flags.split_value_removed_bytes(10).unwrap().removal;
    let incoming = StorageFlags::new_single_epoch(9, None);
    let merged = flags.combine_removed_bytes(incoming, &removed, MergingOwnersStrategy::RaiseIssue);
    assert_eq!(merged, Ok(StorageFlags::MultiEpoch(5, [(7, 6)].into())));
}
