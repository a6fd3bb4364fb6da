//! Tables of totals, flags that name rows of them, and changes of both.
use super::{flags, lent, numbers};
use crate::question::Change;
use crate::random::Random;
use crate::totals_model::{self, Map};
use crate::values::*;
use std::collections::BTreeMap;

/// A total that is not 0: small, around what a count holds, around the largest, or of any width.
fn total(random: &mut Random) -> u64 {
    let count = u64::from(numbers::count(random));
    let total = match random.below(8) {
        0..=3 => count,
        4 => count + u64::from(numbers::count(random)),
        5 | 6 => u64::MAX - count,
        _ => random.bits() >> random.below(64),
    };
    total.max(1)
}

/// Some owners, so few that they meet.
fn owners(random: &mut Random) -> Vec<Id> {
    (0..1 + random.below(3)).map(|_| numbers::owner(random)).collect()
}

/// A proper table of at most so many rows, which need not come from elements.
fn table(random: &mut Random, most: usize) -> Map {
    let owners = owners(random);
    (0..random.size(most)).map(|_| ((random.pick(&owners), numbers::epoch(random)), u128::from(total(random)))).collect()
}

/// A count for what a total has or can still take: mostly no more, often just so much.
fn count(random: &mut Random, room: u128) -> u32 {
    let fits = u32::try_from(room).unwrap_or(u32::MAX);
    match random.below(12) {
        0 => numbers::count(random),
        1 => fits.saturating_add(1 + random.below(3) as u32),
        2..=5 => fits,
        _ => numbers::count(random).min(fits),
    }
}

/// Flags of an owner that name some rows of a table, and some epochs beside them; `room` says how much a total leaves for a count.
fn naming(random: &mut Random, map: &Map, most: usize, room: impl Fn(u128) -> u128) -> Flags {
    if random.one_in(12) {
        return flags::proper(random, most);
    }
    let pairs: Vec<_> = map.keys().copied().collect();
    let owner = if pairs.is_empty() || random.one_in(8) { numbers::owner(random) } else { random.pick(&pairs).0 };
    let base = if random.one_in(4) { numbers::epoch(random) } else { 0 };
    let mut records = BTreeMap::new();
    for ((_, epoch), total) in map.range((owner, 0)..=(owner, u16::MAX)) {
        if *epoch > base && random.one_in(2) && records.len() < most {
            records.insert(*epoch, count(random, room(*total)));
        }
    }
    if base < u16::MAX && (random.one_in(3) || records.is_empty()) {
        let epoch = numbers::epoch_above(random, base);
        let held = map.get(&(owner, epoch)).copied().unwrap_or(0);
        records.insert(epoch, count(random, room(held)));
    }
    let unowned = owner == ZEROS && !random.one_in(4);
    let kind = if unowned { 0 } else { 2 } + u8::from(!records.is_empty());
    let records: Vec<_> = records.into_iter().collect();
    // the owner bytes of unowned flags are not read, so they may be anything
    let owner = if unowned && random.one_in(3) { numbers::owner(random) } else { owner };
    Flags::new(kind, base, owner, &records)
}

/// A byte that says whether flags are there; mostly they are.
fn present(random: &mut Random) -> u8 {
    random.pick(&[0, 1, 1, 1, 1, 1, 1, 2, 255])
}

/// Makes a table that is not proper, if the change that is tried does so.
fn spoil(random: &mut Random, change: &mut Change) {
    let (rows, table) = (change.rows, &mut change.table);
    let place = random.below(rows.max(2) - 1);
    match random.below(6) {
        0 => change.rows = random.pick(&[rows + 1, table.room() + 1, 65_535, usize::MAX]),
        1 if rows >= 1 => table.bytes[random.below(rows)] = 0,
        2 if rows >= 2 => table.ids.swap(place, place + 1),
        3 if rows >= 2 => table.epochs.swap(place, place + 1),
        4 if rows >= 2 => {
            table.ids[place + 1] = table.ids[place];
            table.epochs[place + 1] = table.epochs[place];
        }
        _ => match random.below(3) {
            0 => table.ids.truncate(rows.saturating_sub(1)),
            1 => table.epochs.truncate(rows.saturating_sub(1)),
            _ => table.bytes.truncate(rows.saturating_sub(1)),
        },
    }
}

/// A change in exactly the table of a map, with both flags there.
fn in_table(map: &Map, old: Flags, new: Flags) -> Change {
    Change { rows: map.len(), table: totals_model::rows(map), old_present: 1, old, new_present: 1, new }
}

/// The change with room that is ample, or near what it needs.
pub fn with_room(random: &mut Random, mut change: Change) -> Change {
    let ample = change.rows + change.new.head.records + 1;
    let room = match totals_model::replace(&change) {
        Ok(after) if random.one_in(2) => lent::totals(random, after.room(), change.rows),
        _ => lent::exact_totals(random, ample),
    };
    change.table = room.with(&change.table);
    change
}

/// A change of a proper table of at most so many rows: mostly accepted, now and then with longer tables or with something not proper.
pub fn any(random: &mut Random, most: usize) -> Change {
    let map = table(random, most);
    let old = naming(random, &map, most, |total| total);
    let mut left = map.clone();
    for (pair, count) in totals_model::recount([Some(&old)]) {
        left.entry(pair).and_modify(|total| *total = total.saturating_sub(count));
    }
    let new = match random.below(12) {
        0 => old.clone(),
        _ => naming(random, &left, most, |total| u128::from(u64::MAX) - total),
    };
    let mut change = in_table(&map, old, new);
    (change.old_present, change.new_present) = (present(random), present(random));
    let mut change = with_room(random, change);
    change.old = flags::changed(random, change.old);
    change.new = flags::changed(random, change.new);
    if random.one_in(16) {
        spoil(random, &mut change);
    }
    change
}
