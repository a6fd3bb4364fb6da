//! Splitting.
use crate::expected::removals::both as expected_both;
use crate::generate::{flags, lent, numbers};
use crate::question::{Both, Reply};
use crate::random::Random;
use crate::values::*;

/// Counts of one, two and three records with amounts of a value, and of a key; every room.
pub fn boundaries(visit: &mut dyn FnMut(Both)) {
    for (count, value) in numbers::COUNTS.into_iter().flat_map(|count| numbers::COUNTS.map(|value| (count, value))) {
        for kind in 0..5 {
            ask(Flags::new(kind, 5, [9; 32], &[(7, count)][..usize::from(kind % 2)]), value, count, visit);
            ask(Flags::new(kind, 5, [9; 32], &[(7, count)][..usize::from(kind % 2)]), 0, value, visit);
        }
        for second in numbers::COUNTS {
            ask(Flags::new(1, 5, [9; 32], &[(7, count), (9, second)]), second, value, visit);
            ask(Flags::new(3, 5, [9; 32], &[(6, second), (7, 3), (65_535, count)]), second, value, visit);
        }
    }
    for base in numbers::EPOCHS {
        for epoch in numbers::EPOCHS {
            ask(Flags::new(1, base, ZEROS, &[(epoch, 5)]), 2, 4, visit);
        }
    }
    rooms(visit);
}

/// Junk for so many rows.
fn room(ids: usize, epochs: usize, bytes: usize) -> Rows {
    Rows { ids: vec![[0x5a; 32]; ids], epochs: vec![0x5a5a; epochs], bytes: vec![0x5a5a_5a5a; bytes] }
}

/// A split with ample room.
fn ask(flags: Flags, key: u32, value: u32, visit: &mut dyn FnMut(Both)) {
    visit(Both { flags, key, value, key_rows: room(1, 2, 3), value_rows: room(5, 5, 5) });
}

/// Every room up to what is needed and one more.
fn rooms(visit: &mut dyn FnMut(Both)) {
    for (ids, epochs, bytes) in (0..64).map(|n| (n / 16, n / 4 % 4, n % 4)) {
        for (key, value) in [(0, 0), (0, 1), (3, 1), (3, 100)] {
            let flags = Flags::new(3, 5, [9; 32], &[(7, 10), (8, 10)]);
            visit(Both { flags, key, value, key_rows: room(bytes, ids, epochs), value_rows: room(ids, epochs, bytes) });
        }
    }
}

/// A random split of both parts; the value's amount is often near what some of the latest records give.
pub fn both(random: &mut Random, most: usize) -> Both {
    let flags = flags::any(random, most);
    let latest = random.below(flags.head.records.min(most) + 1);
    let given: u64 = flags.records().rev().take(latest).map(|record| u64::from(record.1.saturating_sub(3))).sum();
    let value = match u32::try_from(given) {
        Ok(given) if random.one_in(2) => numbers::near(random, given),
        _ => numbers::count(random),
    };
    let key = if random.one_in(2) { 0 } else { numbers::count(random) };
    let value_rows = lent::exact_rows(random, flags.tables.room() + 1);
    with_room(random, Both { flags, key, value, key_rows: room(1, 2, 1), value_rows })
}

/// The same, or with room near what the answers need.
fn with_room(random: &mut Random, mut both: Both) -> Both {
    if random.one_in(2) {
        return both;
    }
    let [key, value] = expected_both(&both).map(|expected| match expected.reply {
        Reply::Sum { answer, .. } => answer.removal.rows,
        Reply::ValueSplit { answer, .. } => answer.removal.rows,
        _ => 0,
    });
    both.key_rows = lent::rows(random, key);
    both.value_rows = lent::rows(random, value);
    both
}
