//! Flags to measure with.
//!
#![doc = include_str!("inputs.md")]
use crate::row::{Bases, Counts, Epochs};
use differential::random::Random;
use differential::values::{Flags, Id};

/// The number that decides all of them.
pub const SEED: u64 = 20_261_116;

/// The largest base of ours, and the largest amount that is added.
const MOST_BASE: usize = 1_000;
const MOST_ADDED: usize = 1_000;

/// Two flags to merge, and the amount.
pub struct Pair {
    pub ours: Flags,
    pub theirs: Flags,
    pub added_bytes: u32,
}

/// Whose an epoch is: ours, theirs, or of both.
#[derive(Clone, Copy)]
struct Whose {
    ours: bool,
    theirs: bool,
}

const OURS: Whose = Whose { ours: true, theirs: false };
const THEIRS: Whose = Whose { ours: false, theirs: true };
const BOTH: Whose = Whose { ours: true, theirs: true };

/// A count of a size. A mixed one has any number of significant bits, all equally often.
fn count(random: &mut Random, counts: Counts) -> u32 {
    match counts {
        Counts::OneByte => random.below(128) as u32,
        Counts::FiveBytes => (1 << 28) + random.below((1 << 32) - (1 << 28)) as u32,
        Counts::Mixed => match random.below(33) {
            0 => 0,
            bits => ((1u64 << (bits - 1)) + random.below(1 << (bits - 1)) as u64) as u32,
        },
    }
}

/// So many rising epochs above a base, about one in four of a stretch, or denser where there are not so many.
fn rising(random: &mut Random, base: usize, many: usize) -> Vec<u16> {
    let stretch = (4 * many).min(usize::from(u16::MAX) - base);
    let mut epochs = Vec::with_capacity(many);
    for place in 0..stretch {
        if random.below(stretch - place) < many - epochs.len() {
            epochs.push((base + 1 + place) as u16);
        }
    }
    epochs
}

/// An owner, or none; the one of unowned flags is zeros.
fn owner(random: &mut Random, owned: bool) -> Id {
    std::array::from_fn(|_| if owned { random.bits() as u8 } else { 0 })
}

/// Flags with such epochs.
fn flags(random: &mut Random, counts: Counts, base: u16, owner: Option<Id>, epochs: impl Iterator<Item = u16>) -> Flags {
    let records: Vec<_> = epochs.map(|epoch| (epoch, count(random, counts))).collect();
    Flags::new(if owner.is_some() { 3 } else { 1 }, base, owner.unwrap_or_default(), &records)
}

/// Flags of so many records; every other one in a pool is owned.
pub fn single(random: &mut Random, counts: Counts, records: usize, place: usize) -> Flags {
    let base = random.below(MOST_BASE);
    let owner = (place % 2 == 1).then(|| owner(random, true));
    let epochs = rising(random, base, records);
    flags(random, counts, base as u16, owner, epochs.into_iter())
}

/// Puts some in a random order.
fn shuffle<T>(random: &mut Random, all: &mut [T]) {
    for place in (1..all.len()).rev() {
        all.swap(place, random.below(place + 1));
    }
}

/// Whose the epochs from the incoming base on are, in rising order: so many of ours, so many of theirs.
fn interleaved(random: &mut Random, epochs: Epochs, ours: usize, theirs: usize) -> Vec<Whose> {
    let common = if epochs == Epochs::Overlapping { ours / 2 } else { 0 };
    let mut places = vec![OURS; ours - common];
    places.extend(vec![BOTH; common]);
    places.extend(vec![THEIRS; theirs - common]);
    if epochs != Epochs::Apart {
        shuffle(random, &mut places);
    }
    places
}

/// Whose all epochs are, in rising order, and the place of the incoming base among them if it is higher: from a tenth to a half of ours
/// stand below it, and in half of the pairs we have a record there.
fn places(random: &mut Random, bases: Bases, epochs: Epochs, records: usize) -> (Vec<Whose>, Option<usize>) {
    if bases == Bases::Equal {
        return (interleaved(random, epochs, records, records), None);
    }
    let least = (records / 10).max(1);
    let below = least + random.below(records / 2 - least + 1);
    let held = random.one_in(2);
    let mut places = vec![OURS; below];
    places.push(Whose { ours: held, theirs: false });
    places.extend(interleaved(random, epochs, records - below - usize::from(held), records));
    (places, Some(below))
}

/// Lowers the count at an epoch, if there is one, so that an amount can be added.
pub fn make_fit(flags: &mut Flags, epoch: u16, amount: u32) {
    if let Ok(place) = flags.tables.epochs.binary_search(&epoch) {
        let count = &mut flags.tables.counts[place];
        *count = (*count).min(u32::MAX - amount);
    }
}

/// Two flags of so many records each. Of four pairs in a pool one has no owner, one ours, one theirs, and one the same twice.
pub fn pair(random: &mut Random, counts: Counts, bases: Bases, epochs: Epochs, records: usize, place: usize) -> Pair {
    let base = random.below(MOST_BASE);
    let added_bytes = random.below(MOST_ADDED) as u32;
    let (whose, incoming) = places(random, bases, epochs, records);
    let epochs = rising(random, base, whose.len());
    let owner = owner(random, true);
    let of = |is: fn(&Whose) -> bool| {
        let held = epochs.iter().zip(&whose).filter(move |(_, whose)| is(whose));
        held.map(|(epoch, _)| *epoch)
    };
    let mut ours = flags(random, counts, base as u16, (place & 1 == 1).then_some(owner), of(|whose| whose.ours));
    let their_base = incoming.map_or(base as u16, |place| epochs[place]);
    let theirs = flags(random, counts, their_base, (place & 2 == 2).then_some(owner), of(|whose| whose.theirs));
    make_fit(&mut ours, their_base, added_bytes);
    Pair { ours, theirs, added_bytes }
}
