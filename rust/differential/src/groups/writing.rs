//! Writing flags, and sizes.
use super::{fit, Visit};
use crate::generate::{flags, lent, numbers};
use crate::question::Question;
use crate::random::Random;
use crate::values::Flags;

/// Every count alone and every pair of counts, every kind, base and owner, with output that is short, exact and ample; all sizes.
pub fn boundaries(visit: &mut Visit) {
    for count in numbers::COUNTS {
        for kind in 0..=4 {
            lengths(&Flags::new(kind, 5, [9; 32], &[(7, count)][..usize::from(kind % 2)]), visit);
        }
        for second in numbers::COUNTS {
            lengths(&Flags::new(1, 5, [0; 32], &[(7, count), (9, second)]), visit);
        }
    }
    for owner in numbers::OWNERS {
        for base in numbers::EPOCHS {
            for epoch in numbers::EPOCHS {
                lengths(&Flags::new(3, base, owner, &[(epoch, 1)]), visit);
            }
            lengths(&Flags::new(2, base, owner, &[]), visit);
        }
    }
    approximate_sizes(visit);
}

/// Flags with output of some lengths around theirs.
fn lengths(flags: &Flags, visit: &mut Visit) {
    visit(Question::SerializedSize { flags: flags.clone() });
    let owner = if flags.owned() { 32 } else { 0 };
    let counts: usize = flags.records().map(|record| 2 + (38 - (record.1 | 1).leading_zeros() as usize) / 7).sum();
    let exact = 3 + owner + counts;
    for length in [0, exact - 1, exact, exact + 1] {
        visit(Question::Serialize { flags: flags.clone(), out: vec![0x5a; length] });
    }
}

/// The sizes of flags before they are made.
fn approximate_sizes(visit: &mut Visit) {
    for (has_owner, given) in [(0, 0), (0, 1), (1, 0), (1, 1), (2, 255), (255, 2)] {
        for changes in numbers::EPOCHS {
            for size in [0, 1, 2, 5, 127, 128, 253, 254, 255] {
                visit(Question::ApproximateSize { has_owner, given, changes, size });
            }
        }
    }
}

/// Flags that are written.
pub fn serialize(random: &mut Random, most: usize) -> Question {
    let flags = flags::any(random, most);
    let out = lent::bytes(random, 35 + 7 * flags.tables.room());
    fit(random, Question::Serialize { flags, out })
}

/// Flags whose size is asked for.
pub fn serialized_size(random: &mut Random, most: usize) -> Question {
    Question::SerializedSize { flags: flags::any(random, most) }
}

/// A size before there are flags.
pub fn approximate_size(random: &mut Random, _most: usize) -> Question {
    let (has_owner, given) = (random.below(3) as u8, random.below(3) as u8);
    Question::ApproximateSize { has_owner, given, changes: numbers::epoch(random), size: random.bits() as u8 }
}
