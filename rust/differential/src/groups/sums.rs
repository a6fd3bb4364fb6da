//! Adding up removals, and what they come to.
use super::Visit;
use crate::generate::{numbers, removals};
use crate::question::Question;
use crate::random::Random;
use crate::values::*;

/// The versions at which something could change.
pub const VERSIONS: [u16; 4] = [0, 1, 2, 65_535];

/// Pairs of numbers in every form of a sum, all pairs of some removals, and every room.
pub fn boundaries(visit: &mut Visit) {
    for (first, second) in numbers::COUNTS.into_iter().flat_map(|first| numbers::COUNTS.map(|second| (first, second))) {
        let row = |bytes| Removal::sectioned(&[(ZEROS, u16::MAX, bytes)]);
        let forms = [Removal::basic, row];
        for (ours, rhs) in forms.into_iter().flat_map(|ours| forms.map(|rhs| (ours(first), rhs(second)))) {
            for version in VERSIONS {
                sum(ours.clone(), rhs.clone(), version, visit);
            }
        }
        counted(&Removal::sectioned(&[(ZEROS, 1, first), (ZEROS, 2, second)]), visit);
        counted(&Removal::sectioned(&[(ZEROS, 1, first), ([1; 32], 1, second)]), visit);
        counted(&Removal::basic(first), visit);
    }
    let some = some_removals();
    for (ours, rhs) in some.iter().flat_map(|ours| some.iter().map(move |rhs| (ours, rhs))) {
        for version in VERSIONS {
            sum(ours.clone(), rhs.clone(), version, visit);
        }
    }
    some.iter().for_each(|removal| counted(removal, visit));
}

/// Removals of all kinds, also not proper ones, with rows at the zero identifier and the last epoch and beside them.
fn some_removals() -> Vec<Removal> {
    let rows =
        [(ZEROS, 3, 10), (ZEROS, u16::MAX, 4), (numbers::OWNERS[1], 3, 0), (numbers::OWNERS[1], u16::MAX, u32::MAX), ([255; 32], 0, 1)];
    let mut some = vec![Removal::default(), Removal::basic(0), Removal::basic(7)];
    for chosen in 0..1 << rows.len() {
        let taken: Vec<_> = rows.iter().enumerate().filter(|(place, _)| chosen >> place & 1 == 1).map(|(_, row)| *row).collect();
        some.push(Removal::sectioned(&taken));
    }
    some.push(Removal::sectioned(&[rows[1], rows[0]]));
    some.push(Removal::sectioned(&[rows[0], rows[0]]));
    some.push(Removal { state: petasunok_removal { kind: 3, bytes: 1, rows: 0 }, rows: Rows::default() });
    some.push(Removal { state: petasunok_removal { kind: 2, bytes: 0, rows: 1 }, rows: Rows::default() });
    some
}

/// A sum with rooms from what ours has to more than is needed.
fn sum(ours: Removal, rhs: Removal, version: u16, visit: &mut Visit) {
    for more in [0, 1, 3, 6] {
        let mut ours = ours.clone();
        ours.rows.ids.extend(vec![[0x5a; 32]; more]);
        ours.rows.epochs.extend(vec![0x5a5a; more]);
        ours.rows.bytes.extend(vec![0x5a5a_5a5a; more]);
        visit(Question::AddAssign { ours, rhs: rhs.clone(), version });
    }
}

/// Both numbers of a removal.
fn counted(removal: &Removal, visit: &mut Visit) {
    visit(Question::HasRemoval { removal: removal.clone() });
    visit(Question::TotalRemovedBytes { removal: removal.clone() });
}

/// A random sum; the right one often has rows of the left one.
pub fn add_assign(random: &mut Random, most: usize) -> Question {
    let mut ours = removals::proper(random, most);
    let rhs = if random.one_in(3) { removals::beside(random, &ours, most) } else { removals::proper(random, most) };
    let more = if random.one_in(2) { most + 1 } else { rhs.state.rows + 1 };
    removals::loosen(random, &mut ours, more);
    if random.one_in(2) {
        removals::lengthen(random, &mut ours, rhs.state.rows + 1);
    }
    let version = if random.one_in(8) { random.bits() as u16 } else { random.pick(&VERSIONS) };
    Question::AddAssign { ours: removals::changed(random, ours), rhs: removals::changed(random, rhs), version }
}

/// Whether a random removal removes anything; often all its rows are 0.
pub fn has_removal(random: &mut Random, most: usize) -> Question {
    let mut removal = removals::proper(random, most);
    if random.one_in(2) {
        removal.rows.bytes.fill(0);
    }
    Question::HasRemoval { removal: removals::changed(random, removal) }
}

/// The total of a random removal; often just around the largest.
pub fn total(random: &mut Random, most: usize) -> Question {
    let mut removal = removals::proper(random, most);
    let rest: u64 = removal.rows.bytes.iter().skip(1).map(|bytes| u64::from(*bytes)).sum();
    if let (Some(first), Ok(rest), true) = (removal.rows.bytes.first_mut(), u32::try_from(rest), random.one_in(2)) {
        *first = numbers::near(random, u32::MAX - rest);
    }
    Question::TotalRemovedBytes { removal: removals::changed(random, removal) }
}
