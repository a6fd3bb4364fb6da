//! Request (ix), run on all small removals, by us at the C boundary and by the original: the laws from version 1 on, and at version 0 the smallest
//! removals that break each of them, as docs/ORDER.md has them.
#![cfg(not(debug_assertions))] // a minute in a dev build, seconds in a release build
use differential::boundary;
use differential::expected::expected;
use differential::groups::sums::VERSIONS;
use differential::model;
use differential::question::{Question, Reply};
use differential::values::*;
use std::collections::BTreeMap;

/// Who is asked.
type Asked = fn(&Question) -> Reply;
const ASKED: [Asked; 2] = [boundary::ask, |question| expected(question).reply];

/// The pairs that rows have: that of a basic number, another of the zero identifier, and one of another.
const PAIRS: [(Id, u16); 3] = [(ZEROS, u16::MAX), (ZEROS, 0), ([1; 32], 0)];

/// Numbers of bytes.
const BYTES: [u32; 3] = [0, 1, u32::MAX];

/// None, the numbers, and rows of some pairs with each of the numbers or without a row.
fn small(pairs: &[(Id, u16)]) -> Vec<Removal> {
    let mut rows = vec![vec![]];
    for (id, epoch) in pairs {
        let with_one = |some: &Vec<_>| BYTES.map(|bytes| [some.clone(), vec![(*id, *epoch, bytes)]].concat());
        rows.extend(rows.iter().flat_map(with_one).collect::<Vec<_>>());
    }
    let sectioned = rows.iter_mut().map(|rows| {
        rows.sort_unstable();
        Removal::sectioned(rows)
    });
    [Removal::default()].into_iter().chain(BYTES.map(Removal::basic)).chain(sectioned).collect()
}

/// A sum, in tables that hold exactly its rows.
fn sum(asked: Asked, x: &Removal, y: &Removal, version: u16) -> Removal {
    let room = x.state.rows + y.state.rows + 1;
    let mut ours = x.clone();
    ours.rows.ids.resize(room, ZEROS);
    ours.rows.epochs.resize(room, 0);
    ours.rows.bytes.resize(room, 0);
    let Reply::Sum { answer, mut rows } = asked(&Question::AddAssign { ours, rhs: y.clone(), version }) else {
        panic!("a sum answers a sum")
    };
    assert_eq!(answer.refusal, 0);
    let state = answer.removal;
    rows.ids.truncate(state.rows);
    rows.epochs.truncate(state.rows);
    rows.bytes.truncate(state.rows);
    Removal { state, rows }
}

/// Whether nothing saturates: at no pair both together pass 32 bits. A basic number stands at its own pair.
fn exact(x: &Removal, y: &Removal) -> bool {
    let mut at = BTreeMap::new();
    for removal in [x, y] {
        let basic = (removal.state.kind == 1).then_some((ZEROS, u16::MAX, removal.state.bytes));
        for (id, epoch, bytes) in removal.rows().chain(basic) {
            *at.entry((id, epoch)).or_insert(0) += u64::from(bytes);
        }
    }
    at.into_values().all(|bytes| bytes <= u32::MAX.into())
}

fn commutes(asked: Asked, version: u16, [x, y]: [&Removal; 2]) -> bool {
    sum(asked, x, y, version) == sum(asked, y, x, version)
}

fn associates(asked: Asked, version: u16, [x, y, z]: [&Removal; 3]) -> bool {
    sum(asked, &sum(asked, x, y, version), z, version) == sum(asked, x, &sum(asked, y, z, version), version)
}

fn keeps_total(asked: Asked, version: u16, [x, y]: [&Removal; 2]) -> bool {
    !exact(x, y) || model::total(&sum(asked, x, y, version)) == model::total(x) + model::total(y)
}

fn pairs(some: &[Removal]) -> impl Iterator<Item = [&Removal; 2]> + Clone {
    some.iter().flat_map(|x| some.iter().map(move |y| [x, y]))
}

fn triples(some: &[Removal]) -> impl Iterator<Item = [&Removal; 3]> + Clone {
    pairs(some).flat_map(|[x, y]| some.iter().map(move |z| [x, y, z]))
}

#[test]
fn none_is_neutral_at_every_version() {
    let none = Removal::default();
    for (asked, version) in ASKED.into_iter().flat_map(|asked| VERSIONS.map(|version| (asked, version))) {
        for x in &small(&PAIRS) {
            assert_eq!((&sum(asked, &none, x, version), &sum(asked, x, &none, version)), (x, x));
        }
    }
}

#[test]
fn from_version_1_on_in_any_order() {
    let (many, few) = (small(&PAIRS), small(&PAIRS[..2]));
    let later = VERSIONS.into_iter().filter(|version| *version > 0).cycle();
    for asked in ASKED {
        for (both, version) in pairs(&many).zip(later.clone()) {
            assert!(commutes(asked, version, both), "version {version}: {both:?}");
            assert!(keeps_total(asked, version, both), "version {version}: {both:?}");
        }
        for (three, version) in triples(&few).zip(later.clone()) {
            assert!(associates(asked, version, three), "version {version}: {three:?}");
        }
    }
}

#[test]
fn where_something_saturates_the_total_is_less_at_every_version() {
    for (asked, version) in ASKED.into_iter().flat_map(|asked| VERSIONS.map(|version| (asked, version))) {
        for [x, y] in pairs(&small(&PAIRS)) {
            let (given, left) = (model::total(x) + model::total(y), model::total(&sum(asked, x, y, version)));
            assert!(left < given || left == given && exact(x, y), "version {version}: {x:?} {y:?}");
        }
    }
}

/// How large an example is: first by its rows, then by its bytes.
fn size<const N: usize>(example: &[&Removal; N]) -> (usize, u64) {
    (example.iter().map(|removal| removal.state.rows).sum(), example.iter().map(|removal| model::total(removal)).sum())
}

/// Those that break a law at version 0, for whoever is asked, are some; none is smaller than an example; and it is one of them.
fn smallest<'a, const N: usize>(
    all: impl Iterator<Item = [&'a Removal; N]> + Clone,
    holds: fn(Asked, u16, [&Removal; N]) -> bool,
    example: [&Removal; N],
) {
    for asked in ASKED {
        assert!(!holds(asked, 0, example));
        let least = all.clone().filter(|removals| !holds(asked, 0, *removals)).map(|removals| size(&removals)).min();
        assert_eq!(least, Some(size(&example)));
    }
}

#[test]
fn the_smallest_that_break_the_laws_at_version_0() {
    let (many, few) = (small(&PAIRS), small(&PAIRS[..2]));
    let (zero, row, byte) = (Removal::basic(0), Removal::sectioned(&[(ZEROS, 0, 0)]), Removal::sectioned(&[(ZEROS, 0, 1)]));
    let no_rows = Removal::sectioned(&[]);
    smallest(pairs(&many), commutes, [&zero, &row]);
    smallest(triples(&few), associates, [&zero, &zero, &no_rows]);
    smallest(pairs(&many), keeps_total, [&zero, &byte]);
}
