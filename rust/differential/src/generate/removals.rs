//! Removals: any, ones that fit flags, and ones that are not proper.
use super::{lent, numbers};
use crate::expected::removals::parts;
use crate::model;
use crate::random::Random;
use crate::values::*;
use std::collections::BTreeMap;

/// Sections in order.
fn sectioned(sections: BTreeMap<(Id, u16), u32>) -> Removal {
    let rows: Vec<_> = sections.into_iter().map(|((id, epoch), bytes)| (id, epoch, bytes)).collect();
    Removal::sectioned(&rows)
}

/// A proper removal of at most so many rows.
pub fn proper(random: &mut Random, most: usize) -> Removal {
    match random.below(6) {
        0 => Removal::default(),
        1 => Removal::basic(numbers::count(random)),
        _ => {
            let mut sections = BTreeMap::new();
            for _ in 0..random.size(most) {
                let id = if random.one_in(2) { ZEROS } else { numbers::owner(random) };
                let epoch = if random.one_in(6) { u16::MAX } else { numbers::epoch(random) };
                sections.insert((id, epoch), numbers::count(random));
            }
            sectioned(sections)
        }
    }
}

/// A removal for a merge: mostly under our owner and at epochs of both sides, with bytes near what the records hold.
pub fn for_merge(random: &mut Random, ours: &Flags, theirs: &Flags, most: usize) -> Removal {
    if random.one_in(6) {
        return proper(random, most);
    }
    if random.one_in(3) && model::flags_fault(ours).is_none() {
        return a_split(random, ours);
    }
    let held: BTreeMap<u16, u32> = ours.records().chain(theirs.records()).collect();
    let mut sections = BTreeMap::new();
    for (epoch, count) in held {
        if random.one_in(2) && sections.len() < most {
            let bytes = if random.one_in(4) { numbers::count(random) } else { numbers::near(random, count) };
            sections.insert((ours.identifier(), epoch), bytes.min(count.saturating_add(u32::from(random.one_in(8)))));
        }
    }
    if random.one_in(2) {
        sections.insert((ours.identifier(), ours.head.base), numbers::count(random));
    }
    if random.one_in(6) {
        sections.insert((ours.identifier(), numbers::epoch(random)), numbers::count(random));
    }
    if random.one_in(8) {
        sections.insert((numbers::owner(random), numbers::epoch(random)), numbers::count(random));
    }
    sectioned(sections)
}

/// What is split from flags.
fn a_split(random: &mut Random, ours: &Flags) -> Removal {
    let held: u64 = ours.records().map(|record| u64::from(record.1)).sum();
    let most = held.clamp(1, u32::MAX.into());
    let amount = if random.one_in(2) { random.below(most as usize) as u32 } else { numbers::count(random) };
    parts(ours, 0, amount).1
}

/// A removal with some rows of another one and some of its own.
pub fn beside(random: &mut Random, ours: &Removal, most: usize) -> Removal {
    let mut sections = BTreeMap::new();
    for (id, epoch, _) in ours.rows().chain(proper(random, most / 2).rows()) {
        if random.one_in(2) && sections.len() < most {
            sections.insert((id, epoch), numbers::count(random));
        }
    }
    sectioned(sections)
}

/// Lengthens all three tables behind the rows by so many places.
pub fn lengthen(random: &mut Random, removal: &mut Removal, more: usize) {
    let junk = lent::exact_rows(random, more);
    removal.rows.ids.extend(junk.ids);
    removal.rows.epochs.extend(junk.epochs);
    removal.rows.bytes.extend(junk.bytes);
}

/// Lengthens the tables behind the rows by up to so many places, not always all three.
pub fn loosen(random: &mut Random, removal: &mut Removal, most: usize) {
    lengthen(random, removal, most);
    let rows = removal.state.rows;
    removal.rows.ids.truncate(rows + random.below(most + 1));
    removal.rows.epochs.truncate(rows + random.below(most + 1));
    removal.rows.bytes.truncate(rows + random.below(most + 1));
}

/// Makes a removal that is not proper, if the change that is tried does so.
pub fn spoil(random: &mut Random, removal: &mut Removal) {
    let rows = removal.state.rows;
    match random.below(6) {
        0 => removal.state.kind = random.pick(&numbers::BAD_BYTES),
        1 => removal.state.rows = random.pick(&[rows + 1, 65_535, usize::MAX, 1 << 32]),
        2 => removal.state.rows = removal.rows.room() + 1,
        3 if rows >= 2 => {
            let place = random.below(rows - 1);
            removal.rows.ids.swap(place, place + 1);
        }
        4 if rows >= 2 => {
            let place = random.below(rows - 1);
            removal.rows.epochs.swap(place, place + 1);
        }
        5 if rows >= 2 => {
            let place = random.below(rows - 1);
            removal.rows.ids[place + 1] = removal.rows.ids[place];
            removal.rows.epochs[place + 1] = removal.rows.epochs[place];
        }
        _ => removal.state.kind = 2,
    }
}

/// A removal as it is, or with longer tables, or not proper. What its kind does not have is not read, so it may be anything.
pub fn changed(random: &mut Random, mut removal: Removal) -> Removal {
    if random.one_in(4) {
        loosen(random, &mut removal, 3);
    }
    if random.one_in(16) {
        spoil(random, &mut removal);
    }
    if removal.state.kind == 2 && random.one_in(4) {
        removal.state.bytes = numbers::count(random);
    }
    if removal.state.kind < 2 && random.one_in(4) {
        removal.state.rows = random.below(4);
    }
    removal
}
